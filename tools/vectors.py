#!/usr/bin/env python3
"""Writes the calls that the gate runs the program on, and the lines that it has to print.

The places come from a reading of docs/FORMAT.md that is written down here a second time, apart from the engine:
for each kind of call one that is good, every beginning of it, and it with one wrong byte at every place.

    tools/vectors.py CALLS LINES
"""

import sys

MOST_DEPTH = 64


def word(n):
    return n.to_bytes(8, "big")


def text(t):
    t = t.encode() if isinstance(t, str) else t
    return word(len(t)) + t


def uid(t, i):
    return text(t) + text(i)


def many(items):
    return b"".join(b"\x01" + x for x in items) + b"\x00"


class Stop(Exception):
    """The bytes cease to be a call at this place."""


class Reader:
    """Reads a call off bytes as docs/FORMAT.md has it, and finds the first byte that can't stand where it does."""

    def __init__(self, bytes_):
        self.bytes = bytes_
        self.at = 0

    def byte(self, most):
        if self.at >= len(self.bytes):
            raise Stop(len(self.bytes))
        if self.bytes[self.at] > most:
            raise Stop(self.at)
        self.at += 1
        return self.bytes[self.at - 1]

    def run(self, n):
        if len(self.bytes) - self.at < n:
            raise Stop(len(self.bytes))
        self.at += n
        return self.bytes[self.at - n : self.at]

    def word(self):
        return int.from_bytes(self.run(8), "big")

    def text(self):
        return self.run(self.word())

    def uid(self):
        return (self.text(), self.text())

    def many(self, one):
        found = []
        while self.byte(1) == 1:
            found.append(one())
        return found

    def pattern(self):
        for _ in range(self.word()):
            if self.byte(1) == 1:
                self.byte(0)
            else:
                self.byte(255)

    def level(self, depth):
        """A form with others in it needs a level of depth; its tag is the byte that can't stand there."""
        if depth == 0:
            raise Stop(self.at - 1)
        return depth - 1

    def value(self, depth):
        tag = self.byte(5)
        if tag < 4:
            self.primitive(tag)
        elif tag == 4:
            below = self.level(depth)
            self.many(lambda: self.value(below))
        else:
            self.named(self.level(depth), self.value)

    def primitive(self, tag):
        (lambda: self.byte(1), self.word, self.text, self.uid)[tag]()

    def named(self, depth, one):
        def item():
            self.text()
            one(depth)

        self.many(item)

    def expr(self, depth):
        tag = self.byte(17)
        if tag < 4:
            return self.primitive(tag)
        if tag == 4:
            return self.byte(3)
        below = self.level(depth)
        if tag == 16:
            return self.many(lambda: self.expr(below))
        if tag == 17:
            return self.named(below, self.expr)
        if tag == 11:
            self.pattern()
        elif tag in (12, 14, 15):
            self.text()
        elif tag == 13:
            self.byte(11)
        for _ in range({5: 3, 6: 2, 7: 2, 13: 2}.get(tag, 1)):
            self.expr(below)

    def type(self, depth):
        """A pair of the form and what it holds."""
        tag = self.byte(5)
        if tag == 0:
            return (tag, self.byte(2))
        if tag == 3:
            return (tag, self.text())
        if tag == 4:
            return (tag, self.type(self.level(depth)))
        if tag == 5:
            return (tag, self.attrs(self.level(depth)))
        return (tag, None)

    def attrs(self, depth):
        """Pairs of a name and its type."""

        def item():
            self.byte(1)
            return (self.text(), self.type(depth))

        return self.many(item)

    def scope(self, most):
        tag = self.byte(most)
        if tag in (1, 2):
            self.uid()
        elif tag == 3:
            self.text()
        elif tag == 4:
            self.text()
            self.uid()
        elif tag == 5:
            self.many(self.uid)

    def condition(self):
        self.byte(1)
        self.expr(MOST_DEPTH)

    def policy(self):
        self.text()
        self.byte(1)
        self.scope(4)
        self.scope(5)
        self.scope(4)
        self.many(self.condition)

    def entity(self):
        self.uid()
        self.named(MOST_DEPTH - 1, self.value)
        self.many(self.uid)
        self.named(MOST_DEPTH - 1, self.value)

    def entry(self):
        return (self.text(), self.many(self.text), self.attrs(MOST_DEPTH - 1), self.many(lambda: self.type(MOST_DEPTH)))

    def action(self):
        return (self.uid(), self.many(self.text), self.many(self.text), self.many(self.uid), self.attrs(MOST_DEPTH - 1))

    def schema(self):
        return (self.many(self.entry), self.many(self.action))

    def request(self):
        self.uid()
        self.uid()
        self.uid()
        self.named(MOST_DEPTH - 1, self.value)

    def call(self):
        tag = self.byte(6)
        carried = (self.schema, self.policy, self.text, self.entity, self.uid, lambda: None, self.request)[tag]()
        if self.at != len(self.bytes):
            raise Stop(self.at)
        return tag, carried


def ascending(keys):
    return all(a < b for a, b in zip(keys, keys[1:]))


def uid_key(uid_):
    """Names of entities go by lengths and bytes of type and id."""
    kind, name = uid_
    return (len(kind), kind, len(name), name)


def well_formed(entries, actions):
    """Whether a schema is in order, as docs/FORMAT.md and the definitions say."""
    types = [name for name, _, _, _ in entries]
    uids = [uid_ for uid_, _, _, _, _ in actions]
    known = set(types) | {kind for kind, _ in uids}

    def good_type(t):
        form, held = t
        if form == 0:
            return held == 0
        if form == 3:
            return held in known
        if form == 4:
            return good_type(held)
        return good_attrs(held) if form == 5 else True

    def good_attrs(attrs):
        return ascending([name for name, _ in attrs]) and all(good_type(t) for _, t in attrs)

    def good_entry(entry):
        _, above, attrs, tags = entry
        return ascending(above) and set(above) <= set(types) and good_attrs(attrs) and len(tags) <= 1 and all(map(good_type, tags))

    def good_action(action):
        uid_, principals, resources, above, context = action
        closed = all(set(more) <= set(above) for other, _, _, more, _ in actions if other in above)
        named = ascending(principals) and ascending(resources) and set(principals) | set(resources) <= known
        over = ascending([uid_key(u) for u in above]) and set(above) <= set(uids) and uid_ not in above and closed
        return named and over and uid_[0] not in types and good_attrs(context)

    in_order = ascending(types) and ascending([uid_key(u) for u in uids])
    return in_order and all(map(good_entry, entries)) and all(map(good_action, actions))


def answer(call):
    """The refusal and its place: 1 for what is no call, 3 for a schema that is not in order, else 2, as no call is done yet."""
    try:
        tag, carried = Reader(call).call()
    except Stop as stop:
        return 1, stop.args[0]
    return (3 if tag == 0 and not well_formed(*carried) else 2), 0


def integer(n):
    return b"\x01" + word(n + 2**63)


VARIABLE = {"principal": b"\x04\x00", "action": b"\x04\x01", "resource": b"\x04\x02", "context": b"\x04\x03"}


def samples():
    """One good call of each kind, which between them have every form."""
    principal, resource = VARIABLE["principal"], VARIABLE["resource"]
    every_expr = b"\x11" + many(
        [
            text("a") + b"\x05" + b"\x00\x01" + integer(-3) + b"\x02" + text("x"),
            text("b") + b"\x06" + b"\x08\x00\x00" + b"\x07\x00\x00\x00\x01",
            text("c") + b"\x09" + integer(2**63 - 1),
            text("d") + b"\x0a\x10" + many([b"\x03" + uid("T", "i"), principal]),
            text("e") + b"\x0b" + word(3) + b"\x00a\x01\x00\x00b" + b"\x0f" + text("name") + resource,
            text("f") + b"\x0c" + text("T") + b"\x0e" + text("owner") + resource,
            text("g") + b"\x0d\x0b" + VARIABLE["action"] + VARIABLE["context"],
        ]
    )
    policy = b"\x01" + text("p1") + b"\x01" + b"\x04" + text("T") + uid("R", "r") + b"\x05" + many([uid("A", "x"), uid("A", "y")])
    policy += b"\x03" + text("D") + many([b"\x00" + every_expr, b"\x01" + principal])
    values = many([text("n") + integer(7), text("s") + b"\x04" + many([b"\x00\x00", b"\x02" + text("q")]), text("t") + b"\x05" + many([text("u") + b"\x03" + uid("T", "i")])])
    entity = b"\x03" + uid("T", "e") + values + many([uid("T", "a")]) + many([text("tag") + b"\x00\x01"])
    types = many([b"\x01" + text("n") + b"\x01", b"\x00" + text("s") + b"\x04\x03" + text("T"), b"\x01" + text("z") + b"\x05" + many([b"\x01" + text("b") + b"\x00\x00"])])
    entry = text("T") + many([text("T")]) + types + many([b"\x02"])
    action = uid("A", "x") + many([text("T")]) + many([text("T")]) + many([]) + many([b"\x01" + text("day") + b"\x01"])
    return [
        b"\x00" + many([entry]) + many([action]),
        policy,
        b"\x02" + text("p1"),
        entity,
        b"\x04" + uid("T", "e"),
        b"\x05",
        b"\x06" + uid("T", "p") + uid("A", "x") + uid("T", "r") + values,
    ]


def deep(levels):
    """A policy whose condition has `not` so many times before `principal`."""
    return b"\x01" + text("p") + b"\x00\x00\x00\x00" + many([b"\x00" + b"\x08" * levels + VARIABLE["principal"]])


def schemas():
    """Schemas that are not in order for one reason each, and one that is."""
    int_, string = b"\x01", b"\x02"

    def entry(name, above=(), attrs=(), tags=()):
        return text(name) + many([text(t) for t in above]) + many([b"\x01" + text(a) + t for a, t in attrs]) + many(tags)

    def action(name, principals=(), resources=(), above=(), context=(), kind="A"):
        lists = many([text(t) for t in principals]) + many([text(t) for t in resources]) + many([uid("A", u) for u in above])
        return uid(kind, name) + lists + many([b"\x01" + text(a) + t for a, t in context])

    def schema(entries, actions=()):
        return b"\x00" + many(entries) + many(actions)

    yield schema([entry("T", ["U"], [("a", int_), ("b", b"\x03" + text("U"))], [string]), entry("U")], [action("all"), action("read", ["T", "U"], ["T"], ["all"])])
    yield schema([entry("U"), entry("T")])
    yield schema([entry("T"), entry("T")])
    yield schema([entry("T", ["V"])])
    yield schema([entry("T", ["T", "T"])])
    yield schema([entry("T", [], [("b", int_), ("a", int_)])])
    yield schema([entry("T", [], [("a", b"\x03" + text("V"))])])
    yield schema([entry("T", [], [("a", b"\x00\x01")])])
    yield schema([entry("T", [], [], [int_, int_])])
    yield schema([entry("T", [], [], [b"\x04\x03" + text("V")])])
    yield schema([entry("T")], [action("read"), action("all")])
    yield schema([entry("T")], [action("read", ["V"])])
    yield schema([entry("T")], [action("read", [], [], ["all"])])
    yield schema([entry("T")], [action("read", [], [], ["read"])])
    yield schema([entry("T")], [action("a"), action("b", [], [], ["a"]), action("c", [], [], ["b"])])
    yield schema([entry("A")], [action("read")])
    yield schema([entry("T")], [action("read", [], [], [], [("z", int_), ("y", int_)])])


def vectors():
    yield from samples()
    yield from schemas()
    yield from (b"", b"\x07", b"\xff", b"\x05\x00", deep(MOST_DEPTH), deep(MOST_DEPTH + 1))
    for call in samples():
        for end in range(len(call)):
            yield call[:end]
        for at in range(len(call)):
            yield call[:at] + b"\xfe" + call[at + 1 :]
        yield call + b"\x00"


def line(call):
    number, place = answer(call)
    return f"refused {number} at {place}"


def main():
    if len(sys.argv) != 3:
        sys.exit("usage: tools/vectors.py CALLS LINES")
    with open(sys.argv[1], "wb") as calls, open(sys.argv[2], "w") as lines:
        for call in vectors():
            calls.write(word(len(call)) + call)
            lines.write(line(call) + "\n")


if __name__ == "__main__":
    main()
