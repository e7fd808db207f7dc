#!/usr/bin/env python3
"""Writes a file of calls from Cedar's own JSON: a schema, policies, entities and requests.

    tools/calls.py --schema s.json --policies p.json --entities e.json --requests r.json --check -o out.calls

Each is optional, and policies may be several files. The calls come in this order: the schema, the entities, the policies, with --check one that
validates all policies, and the requests. The bytes are those of docs/FORMAT.md: values are brought into order, and what lies above an entity, a type
or an action is closed. With a schema its actions are entities too, as in Cedar.

The formats are Cedar's: the schema's JSON; a policy set's JSON, or that of one policy; a list of entities. Requests are a list of objects with
`principal`, `action` and `resource`, each as {"type": "T", "id": "i"} or as the text T::"i", and `context`, a record.

What the language here does not have is told with the file and the place, and nothing is written: extension functions and types, `has` of several
names, templates, enumerated types, open records.
"""

import argparse
import json
import re
import sys

from vectors import VARIABLE, Reader, Stop, integer, many, text, uid, uid_key, word

LEAST, GREATEST = -(2**63), 2**63 - 1

PRIMITIVES = {"Bool": b"\x00\x00", "Boolean": b"\x00\x00", "Long": b"\x01", "String": b"\x02"}

UNARY = {"!": b"\x08", "neg": b"\x09", "isEmpty": b"\x0a"}

BINARY = {
    name: b"\x0d" + bytes([number])
    for number, name in enumerate(["==", "in", "hasTag", "getTag", "<", "<=", "+", "-", "*", "contains", "containsAll", "containsAny"])
}

# these are written by the others: a > b is !(a <= b)
NEGATED = {"!=": "==", ">": "<=", ">=": "<"}


class Wrong(Exception):
    """What can't be written, and where it stands."""


class At:
    """Something in a JSON file, and its place there."""

    def __init__(self, file, value, path=""):
        self.file, self.value, self.path = file, value, path

    def wrong(self, message):
        return Wrong(f"{self.file}: {self.path or 'at the top'}: {message}")

    def below(self, key, value):
        step = f"[{key}]" if isinstance(key, int) else f".{key}"
        return At(self.file, value, (self.path + step).lstrip("."))

    def object(self, *known):
        """Its members by name; if names are given, there may be no others."""
        if not isinstance(self.value, dict):
            raise self.wrong("not an object")
        for name in self.value:
            if known and name not in known:
                raise self.wrong(f"`{name}` is not known here")
        return {name: self.below(name, value) for name, value in self.value.items()}

    def list(self):
        if not isinstance(self.value, list):
            raise self.wrong("not a list")
        return [self.below(i, value) for i, value in enumerate(self.value)]

    def member(self, name):
        members = self.object()
        if name not in members:
            raise self.wrong(f"`{name}` is missing")
        return members[name]

    def string(self):
        if not isinstance(self.value, str):
            raise self.wrong("not a text")
        return self.value

    def only(self):
        """The name of its one member, and that."""
        members = self.object()
        if len(members) != 1:
            raise self.wrong("not an object of one member")
        return next(iter(members.items()))


def read(name):
    def pairs(members):
        found = {}
        for key, value in members:
            if key in found:
                raise Wrong(f"{name}: `{key}` stands twice in one object")
            found[key] = value
        return found

    try:
        with open(name, encoding="utf-8") as file:
            return At(name, json.load(file, object_pairs_hook=pairs))
    except OSError as error:
        raise Wrong(f"{name}: {error.strerror}")
    except ValueError as error:
        raise Wrong(f"{name}: {error}")


# ---- names of entities


def name_of(at):
    """A pair of type and id, from an object or a text."""
    if isinstance(at.value, str):
        found = re.fullmatch(r'([^"]+)::"((?:[^"\\]|\\.)*)"', at.value)
        if not found:
            raise at.wrong('not a name, as T::"i"')
        return (found[1], re.sub(r"\\(.)", r"\1", found[2]))
    if "__entity" in at.object():
        at = at.member("__entity")
    return (at.member("type").string(), at.member("id").string())


def uid_bytes(name):
    return uid(*name)


def in_order(names):
    """Names of entities as the format has them, each once."""
    return sorted(set(names), key=lambda name: uid_key((name[0].encode(), name[1].encode())))


# ---- values


def number(at):
    if not LEAST <= at.value <= GREATEST:
        raise at.wrong("a number that is not one of 64 bits")
    return integer(at.value)


def primitive(at):
    """A truth, a number, a text or an entity; None for what has parts."""
    if isinstance(at.value, bool):
        return b"\x00\x01" if at.value else b"\x00\x00"
    if isinstance(at.value, int):
        return number(at)
    if isinstance(at.value, str):
        return b"\x02" + text(at.value)
    if isinstance(at.value, dict):
        if "__entity" in at.value:
            return b"\x03" + uid_bytes(name_of(at))
        if "__extn" in at.value or "__expr" in at.value:
            raise at.wrong("there are no extension values here")
        return None
    if isinstance(at.value, list):
        return None
    raise at.wrong("neither a truth, a number, a text, a set nor a record")


def value(at):
    simple = primitive(at)
    if simple is not None:
        return simple
    if isinstance(at.value, list):
        return b"\x04" + many(sorted({value(x) for x in at.list()}))
    return b"\x05" + attributes(at)


def attributes(at):
    """A record without its tag: sorted by the bytes of the names."""
    return many(text(name) + value(x) for name, x in sorted(at.object().items(), key=lambda item: item[0].encode()))


# ---- expressions


def literal(at):
    """A value among expressions, where sets and records are expressions too."""
    simple = primitive(at)
    if simple is not None:
        return simple
    if isinstance(at.value, list):
        return b"\x10" + many(map(literal, at.list()))
    return b"\x11" + many(text(name) + literal(x) for name, x in at.object().items())


def pattern(at):
    """Bytes, and 256 for any run of them."""
    elements = []
    if isinstance(at.value, str):
        for part in re.findall(r"\\.|[^\\]", at.value, re.DOTALL):
            elements += [256] if part == "*" else part[-1].encode()
    else:
        for part in at.list():
            elements += [256] if part.value == "Wildcard" else part.member("Literal").string().encode()
    return word(len(elements)) + b"".join(n.to_bytes(2, "big") for n in elements)


def attribute(at):
    if not isinstance(at.value, str):
        raise at.wrong("`has` of several names has to be written out with `&&`")
    return text(at.value)


def operands(at):
    at.object("left", "right")
    return expr(at.member("left")) + expr(at.member("right"))


def type_test(at):
    left = expr(at.member("left"))
    test = b"\x0c" + text(at.member("entity_type").string()) + left
    return b"\x06" + test + BINARY["in"] + left + expr(at.member("in")) if "in" in at.value else test


def expr(at):
    form, what = at.only()
    if form == "Value":
        return literal(what)
    if form == "Var":
        if what.value not in VARIABLE:
            raise what.wrong("not principal, action, resource or context")
        return VARIABLE[what.value]
    if form in UNARY:
        return UNARY[form] + expr(what.member("arg"))
    if form in ("&&", "||"):
        return {"&&": b"\x06", "||": b"\x07"}[form] + operands(what)
    if form in BINARY:
        return BINARY[form] + operands(what)
    if form in NEGATED:
        return UNARY["!"] + BINARY[NEGATED[form]] + operands(what)
    if form == ".":
        return b"\x0e" + text(what.member("attr").string()) + expr(what.member("left"))
    if form == "has":
        return b"\x0f" + attribute(what.member("attr")) + expr(what.member("left"))
    if form == "like":
        return b"\x0b" + pattern(what.member("pattern")) + expr(what.member("left"))
    if form == "is":
        return type_test(what)
    if form == "if-then-else":
        return b"\x05" + expr(what.member("if")) + expr(what.member("then")) + expr(what.member("else"))
    if form == "Set":
        return b"\x10" + many(map(expr, what.list()))
    if form == "Record":
        return b"\x11" + many(text(name) + expr(x) for name, x in what.object().items())
    if form == "Slot":
        raise at.wrong("there are no templates here")
    raise at.wrong(f"`{form}` is no operator here; there are no extension functions")


# ---- policies


def scope(at):
    op = at.member("op").string()
    if "slot" in at.value:
        raise at.wrong("there are no templates here")
    if op == "All":
        return b"\x00"
    if op == "==":
        return b"\x01" + uid_bytes(name_of(at.member("entity")))
    if op == "in" and "entities" in at.value:
        return b"\x05" + many(uid_bytes(name_of(x)) for x in at.member("entities").list())
    if op == "in":
        return b"\x02" + uid_bytes(name_of(at.member("entity")))
    if op != "is":
        raise at.wrong(f"`{op}` is none of All, ==, in, is")
    kind = text(at.member("entity_type").string())
    if "in" not in at.value:
        return b"\x03" + kind
    if "slot" in at.member("in").object():
        raise at.wrong("there are no templates here")
    return b"\x04" + kind + uid_bytes(name_of(at.member("in").member("entity")))


def choice(at, among):
    if at.value not in among:
        raise at.wrong("none of " + ", ".join(among))
    return among[at.value]


def policy(name, at):
    parts = at.object("effect", "principal", "action", "resource", "conditions", "annotations")
    effect = choice(at.member("effect"), {"permit": b"\x00", "forbid": b"\x01"})
    conditions = []
    for x in parts["conditions"].list() if "conditions" in parts else []:
        kind = choice(x.member("kind"), {"when": b"\x00", "unless": b"\x01"})
        conditions.append(kind + expr(x.member("body")))
    scopes = b"".join(scope(at.member(part)) for part in ("principal", "action", "resource"))
    return b"\x01" + text(name) + effect + scopes + many(conditions)


def policies(at):
    """The calls that put the policies of a set, or a single one, which is called policy0 as in Cedar."""
    members = at.object()
    if "effect" in members:
        yield at, policy("policy0", at)
        return
    at.object("staticPolicies", "templates", "templateLinks")
    for part in ("templates", "templateLinks"):
        if part in members and members[part].value:
            raise members[part].wrong("there are no templates here")
    for name, x in at.member("staticPolicies").object().items():
        yield x, policy(name, x)


# ---- what lies above: `direct` has for each name the names that are nearest


def closed(direct, start):
    above, waiting = set(), list(direct.get(start, ()))
    while waiting:
        name = waiting.pop()
        if name not in above:
            above.add(name)
            waiting += direct.get(name, ())
    return above


# ---- the schema


class Schema:
    """The entity types and actions of a schema's JSON, by their full names."""

    def __init__(self, at):
        self.common, self.types, self.actions = {}, {}, {}
        for space, parts in at.object().items():
            here = parts.object("commonTypes", "entityTypes", "actions", "annotations")
            for kind, table in (("commonTypes", self.common), ("entityTypes", self.types)):
                for name, x in here[kind].object().items() if kind in here else ():
                    table[qualified(space, name)] = (space, x)
            for name, x in here["actions"].object().items() if "actions" in here else ():
                self.actions[(qualified(space, "Action"), name)] = (space, x)
        for _, x in self.types.values():
            if "enum" in x.object():
                raise x.wrong("there are no enumerated types here")
        self.above = {name: [self.type_name(space, t) for t in members(x, "memberOfTypes")] for name, (space, x) in self.types.items()}
        self.over = {name: [self.action_name(space, a) for a in members(x, "memberOf")] for name, (space, x) in self.actions.items()}
        for name, (_, x) in self.actions.items():
            if name in closed(self.over, name):
                raise x.wrong("the action is in itself")

    def find(self, table, space, name):
        """A name as it is written in a namespace: one of that namespace, or a full one."""
        for full in (qualified(space, name), name):
            if full in table:
                return full
        return None

    def type_name(self, space, at):
        full = self.find(self.types, space, at.string())
        if full is None:
            raise at.wrong(f"no entity type `{at.value}`")
        return full

    def action_name(self, space, at):
        parts = at.object("id", "type")
        kind = parts["type"].string() if "type" in parts else "Action"
        name = at.member("id").string()
        for full in ((qualified(space, kind), name), (kind, name)):
            if full in self.actions:
                return full
        raise at.wrong(f"no action `{name}`")

    def type(self, space, at, seen=()):
        """The bytes of a type; `seen` has the common types that it stands in."""
        kind = at.member("type").string()
        if kind == "Set":
            return b"\x04" + self.type(space, at.member("element"), seen)
        if kind == "Record":
            return b"\x05" + self.record(space, at, seen)
        if kind == "Extension":
            raise at.wrong("there are no extension types here")
        if kind == "Entity":
            return b"\x03" + text(self.type_name(space, at.member("name")))
        name = at.member("name") if kind == "EntityOrCommon" else at.member("type")
        return self.named(space, name, kind == "EntityOrCommon", seen)

    def named(self, space, at, entities, seen):
        """A type by its name: a common type, if it may be an entity type, or a primitive one."""
        full = self.find(self.common, space, at.string())
        if full is not None:
            if full in seen:
                raise at.wrong(f"the type `{full}` is in itself")
            there, meaning = self.common[full]
            return self.type(there, meaning, seen + (full,))
        if entities and self.find(self.types, space, at.value):
            return b"\x03" + text(self.type_name(space, at))
        plain = at.value.removeprefix("__cedar::")
        if plain not in PRIMITIVES:
            raise at.wrong(f"no type `{at.value}`")
        return PRIMITIVES[plain]

    def record(self, space, at, seen=()):
        """The attributes of a record type, or of a common type that is one."""
        if at.member("type").value != "Record":
            row = self.type(space, at, seen)
            if row[:1] != b"\x05":
                raise at.wrong("not a record")
            return row[1:]
        if at.value.get("additionalAttributes"):
            raise at.wrong("there are no open records here")
        found = []
        for name, x in sorted(at.member("attributes").object().items(), key=lambda item: item[0].encode()):
            required = b"\x00" if x.value.get("required") is False else b"\x01"
            found.append(required + text(name) + self.type(space, x, seen))
        return many(found)

    def entry(self, name):
        space, at = self.types[name]
        parts = at.object("memberOfTypes", "shape", "tags", "annotations")
        above = many(text(t) for t in sorted(closed(self.above, name), key=str.encode))
        attrs = self.record(space, parts["shape"]) if "shape" in parts else many([])
        tags = [self.type(space, parts["tags"])] if "tags" in parts else []
        return text(name) + above + attrs + many(tags)

    def action(self, name):
        space, at = self.actions[name]
        applies = at.object("memberOf", "appliesTo", "attributes", "annotations").get("appliesTo")
        given = applies is not None and applies.value is not None
        types = {kind: {self.type_name(space, t) for t in members(applies, kind)} if given else () for kind in ("principalTypes", "resourceTypes")}
        lists = b"".join(many(text(t) for t in sorted(types[kind], key=str.encode)) for kind in ("principalTypes", "resourceTypes"))
        above = many(map(uid_bytes, in_order(closed(self.over, name))))
        context = self.record(space, applies.member("context")) if given and "context" in applies.value else many([])
        return uid_bytes(name) + lists + above + context

    def call(self):
        entries = many(map(self.entry, sorted(self.types, key=str.encode)))
        return b"\x00" + entries + many(map(self.action, in_order(self.actions)))


def qualified(space, name):
    return f"{space}::{name}" if space else name


def members(at, name):
    """The elements of a list that may be missing."""
    parts = at.object()
    return parts[name].list() if name in parts and parts[name].value is not None else []


# ---- entities and requests


def entities(at, schema):
    """The calls that put the entities; the actions of the schema that are not among them come first."""
    found = {}
    for x in at.list() if at else []:
        parts = x.object("uid", "attrs", "parents", "tags")
        name = name_of(x.member("uid"))
        if name in found:
            raise x.wrong("an entity of this name has come before")
        found[name] = (x, parts)
    direct = {name: [name_of(p) for p in members(x, "parents")] for name, (x, _) in found.items()}
    for name in in_order(schema.actions) if schema else []:
        if name not in found:
            above = many(map(uid_bytes, in_order(closed(schema.over, name))))
            yield schema.actions[name][1], b"\x03" + uid_bytes(name) + many([]) + above + many([])
    for name, (x, parts) in found.items():
        above = closed(direct, name)
        if name in above:
            raise x.wrong("the entity is in itself")
        attrs, tags = (attributes(parts[part]) if part in parts else many([]) for part in ("attrs", "tags"))
        yield x, b"\x03" + uid_bytes(name) + attrs + many(map(uid_bytes, in_order(above))) + tags


def requests(at):
    for x in at.list():
        parts = x.object("principal", "action", "resource", "context")
        context = attributes(parts["context"]) if "context" in parts else many([])
        yield x, b"\x06" + b"".join(uid_bytes(name_of(x.member(part))) for part in ("principal", "action", "resource")) + context


# ---- all calls


def calls(options):
    schema = Schema(read(options.schema)) if options.schema else None
    if schema:
        yield At(options.schema, None), schema.call()
    if options.entities or schema:
        yield from entities(read(options.entities) if options.entities else None, schema)
    for name in options.policies:
        yield from policies(read(name))
    if options.check:
        yield At("--check", None), b"\x05"
    if options.requests:
        yield from requests(read(options.requests))


def readable(at, call):
    """The call, if it can be read back: all that can keep it from that is its depth."""
    try:
        Reader(call).call()
    except Stop:
        raise at.wrong("deeper than 64 levels")
    return call


def main():
    parser = argparse.ArgumentParser(description="Writes a file of calls from Cedar's JSON.")
    parser.add_argument("--schema", help="a schema in Cedar's JSON")
    parser.add_argument("--policies", nargs="+", default=[], help="policies in Cedar's JSON")
    parser.add_argument("--entities", help="entities in Cedar's JSON")
    parser.add_argument("--requests", help="a list of requests")
    parser.add_argument("--check", action="store_true", help="ask whether all policies fit the schema")
    parser.add_argument("-o", "--output", required=True, help="the file of calls")
    options = parser.parse_args()
    try:
        found = [readable(at, call) for at, call in calls(options)]
    except (Wrong, RecursionError) as error:
        sys.exit(f"calls.py: {error}" if isinstance(error, Wrong) else "calls.py: nested too deep")
    with open(options.output, "wb") as file:
        for call in found:
            file.write(word(len(call)) + call)


if __name__ == "__main__":
    main()
