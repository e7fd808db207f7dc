#!/usr/bin/env python3
"""Brings the names of definitions and lemmas to the spelling of today's Rattle: words in snake case, types and facts in camel case.

usage: python3 tools/respell.py [FOLDER]     once, after the kit's port.py; FOLDER is the repository's top, or this one's.

A word that begins in lower case and has a capital inside becomes snake case (`encodeUID` is `encode_uid`), in clauses, definitions, proofs, wrong edits,
comments and, between backticks, in README.md and docs/. Strings keep theirs. Names of functions of src/ are in snake case already.
"""

import os
import re
import sys

TOP = sys.argv[1] if len(sys.argv) > 1 else os.path.join(os.path.dirname(os.path.abspath(__file__)), "..")
WORD = re.compile(r"(?<![A-Za-z0-9_'\\])[a-z][a-z0-9_]*[A-Z][A-Za-z0-9_]*")
STRING = re.compile(r'"(?:[^"\\\n]|\\.)*"')
# Parts of names that keep their capital: a fact or a type is named in them.
KEPT = {"cases_Bool", "lE"}
# A name that would fall together with another one, and two facts that were in lower case.
OTHER = {"inOne": "is_in_one"}
FACTS = {"validated": "Validated", "answered": "Answered"}


def snake(word):
    if word in KEPT:
        return word
    if word in OTHER:
        return OTHER[word]
    word = word.replace("UIDs", "Uids").replace("UID", "Uid")
    return re.sub(r"(?<=[a-z0-9])(?=[A-Z])|(?<=[A-Z])(?=[A-Z][a-z])", "_", word).lower()


def respelled(text):
    return WORD.sub(lambda m: snake(m.group(0)), text)


def outside_strings(text):
    done, at = [], 0
    for m in STRING.finditer(text):
        done += [respelled(text[at : m.start()]), m.group(0)]
        at = m.end()
    return "".join(done + [respelled(text[at:])])


def in_backticks(text):
    return re.sub(r"`[^`\n]*`", lambda m: respelled(m.group(0)), text)


def facts(text):
    text = re.sub(r"^(abbrev pub )(validated|answered) :", lambda m: m.group(1) + FACTS[m.group(2)] + " :", text, flags=re.M)
    return re.sub(r"^( *(?:× )?)(validated|answered) (?=[\w(])", lambda m: m.group(1) + FACTS[m.group(2)] + " ", text, flags=re.M)


def files():
    for folder, dirs, names in os.walk(os.path.join(TOP, "crates")):
        dirs[:] = sorted(d for d in dirs if d != "out")
        for name in sorted(names):
            if name.endswith((".rt", ".antt", ".edit")):
                yield os.path.join(folder, name), outside_strings
    for folder in (TOP, os.path.join(TOP, "docs")):
        for name in sorted(os.listdir(folder)):
            if name.endswith(".md") and not name.startswith("PORT"):
                yield os.path.join(folder, name), in_backticks


def main():
    changed = 0
    for path, turn in files():
        with open(path, encoding="utf-8") as f:
            old = f.read()
        new = turn(old)
        if path.endswith("TwoDeeds.antt"):
            new = facts(new)
        if new != old:
            changed += 1
            with open(path, "w", encoding="utf-8") as f:
                f.write(new)
    print(f"respell: {changed} files changed")


main()
