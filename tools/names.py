#!/usr/bin/env python3
"""Which name has which id: a map for a source record, so that its equalities can be read with names.

    python3 tools/names.py [--copies] [RECORD]
    python3 tools/names.py --test crates/test_numbering/stdin

RECORD is a source record, or standard input has it. One line is printed for each id that numbering gives to a name of the record, in rising order: the id, the name, what it
is, and behind `=` what evaluation and the copies of the passes put for it, as the equalities have it:

    v9 z public
    v10 x input
    v11 y definition 0 = v14
    v13 and above are made by evaluation and the passes

So v14 can be read as y. What an id is: `public`, `input` (used, and never defined before), `definition K` (the pattern of definition K binds it), `inside definition K` or `inside
expression K` (a let, a parameter or an arm in there does), `intrinsic` (fresh, iter, fold). Definitions and expressions are counted from 0, each list by itself (the place of expression K is the number of definitions plus K). A value is
written as tools/assemble.py reads it; two stand there where a doubled match value bound the name twice, and an input has one where a match opened it. A function draws new ids for all that it
binds whenever it is applied: `--copies` prints these too, with the id that they are copies of.

A record that is refused 1 to 6 has no names: the number on standard error, exit status 1. One that evaluation refuses has no values, and the last line says its number.
`--test` replays the ids that the Rust gives (number_cases.py): next id, publics and the id at every node.

Numbering and evaluation are those of oracle/model/model.py, a second opinion on the proved code; the equalities themselves are printed by the program flatten_equalities.
"""
import os
import struct
import sys

sys.path.insert(0, os.path.join(os.path.dirname(os.path.abspath(__file__)), "..", "oracle", "model"))
import model
from assemble import APPLY, AS, CONS, FUNCTION, INFIX, LET, MATCH, NEGATE, NONE, P_CONS, P_PRODUCT, P_VARIABLE, PRODUCT, SEQUENCE, SIGNS, VARIABLE
from number_cases import REFUSED

INTRINSICS = {b"fresh": 0, b"iter": 2, b"fold": 5}
FIRST_FREE_ID = 9
STORE = 16 * model.STORE_MAX


def links(source, link):
    """The items and arm results of a chain."""
    while link != NONE:
        _, item, after, result = source.nodes[link]
        yield item, result
        link = after


def parts(source, k, tree):
    """The children of node k, each with its tree in the numbered module."""
    kind, a, b, c = source.nodes[k]
    if kind in (PRODUCT, CONS, APPLY, P_PRODUCT, P_CONS):
        return [(a, tree[1]), (b, tree[2])]
    if kind == INFIX:
        return [(a, tree[2]), (b, tree[3])]
    if kind in (NEGATE, AS):
        return [(a, tree[1])]
    if kind == FUNCTION:
        return [(item, p) for (item, _), p in zip(links(source, a), tree[1])] + [(b, tree[2])]
    if kind == LET:
        return [(a, tree[1]), (b, tree[2]), (c, tree[3])]
    if kind == MATCH:
        arms = zip(links(source, b), tree[2], tree[3])
        return [(a, tree[1])] + [pair for (item, result), p, e in arms for pair in ((item, p), (result, e))]
    if kind == SEQUENCE:
        return [(item, e) for (item, _), e in zip(links(source, a), tree[1])]
    return []


class Names:
    """The ids of a source record: at its nodes, and for each id its name and what it is."""

    def __init__(self, record):
        self.source = model.parse_source(record)
        self.numbered = model.number_module(self.source)
        self.next = self.numbered.gen.next
        self.at, self.named, self.kind, self.used = {}, {}, {}, set()
        for name, i in INTRINSICS.items():
            if name in self.source.names:
                self.named[i], self.kind[i] = name, "intrinsic"
        for x, i in zip(self.source.publics, self.numbered.pubs):
            self.give(i, x, "public")
        for k, ((p, v), (pattern, value)) in enumerate(zip(self.source.defs, self.numbered.defs)):
            self.walk(p, pattern, "definition %d" % k)
            self.walk(v, value, "inside definition %d" % k)
        for k, (e, expression) in enumerate(zip(self.source.exprs, self.numbered.exprs)):
            self.walk(e, expression, "inside expression %d" % k)

    def give(self, i, name, kind):
        self.named.setdefault(i, self.source.names[name])
        self.kind.setdefault(i, kind)

    def walk(self, k, tree, binder):
        """The ids in the tree of node k, whose patterns are of that binder."""
        todo = [(k, tree)]
        while todo:
            k, tree = todo.pop()
            kind, a, b, _ = self.source.nodes[k]
            if kind == VARIABLE:
                self.at[k] = tree[1]
                self.used.add(tree[1])
                self.named.setdefault(tree[1], self.source.names[a])
            elif kind == P_VARIABLE:
                self.at[k] = tree[1]
                self.give(tree[1], a, binder)
            elif kind == AS:
                self.at[k] = tree[2]
                self.give(tree[2], b, binder)
            todo += parts(self.source, k, tree)

    def what(self, i):
        """What an id is; who is used and nowhere bound is an input."""
        kind = self.kind.get(i, "input")
        return "public, not used" if kind == "public" and i not in self.used else kind


class Evaluation(model.Ev):
    """An evaluation that notes what each id was bound to, and which ids are copies of which."""

    def __init__(self, numbered):
        super().__init__(numbered, STORE)
        self.values, self.copied = {}, {}

    def evaluate_binding(self, *arguments):
        new = super().evaluate_binding(*arguments)
        for i, value in new.items():
            self.values.setdefault(i, []).append(value)
        return new

    def refresh_pat(self, p, ids):
        made = super().refresh_pat(p, ids)
        if p[0] in ("pvar", "pas"):
            self.copied[made[-1]] = p[-1]
        return made


def written(e):
    """A value in the text form of assemble.py. A closure's text would be its source's: it is just named."""
    if e[0] == "var":
        return "v%d" % e[1]
    if e[0] == "const":
        return "%d" % e[1]
    if e[0] == "infix":
        return "(%s %s %s)" % (SIGNS[e[1]], written(e[2]), written(e[3]))
    if e[0] in ("neg", "prod", "cons"):
        return "(%s %s)" % ({"neg": "neg", "prod": ",", "cons": ":"}[e[0]], " ".join(map(written, e[1:])))
    return {"fun": "function", "intr": "intrinsic"}.get(e[0], e[0])


def resolved(e, state, copies):
    """A value with its parts for a variable that a match opened, and with the copies of the passes put in."""
    if e[0] == "var" and state.bind.get(e[1], e)[0] in ("prod", "cons"):
        e = state.bind[e[1]]
    if e[0] in ("prod", "cons"):
        return (e[0], resolved(e[1], state, copies), resolved(e[2], state, copies))
    return model.copy_expr(e, copies)


def copies_of(state):
    """What the passes put for a variable that is a copy."""
    flat = model.flat_of(state)
    model.classify_defs(flat)
    model.copy_propagate(flat)
    return {i: e for i, e, _ in flat.defs if e[0] in ("var", "const") and i not in flat.prover}


def lines(record, with_copies):
    """The lines of a record. Run it inside model.deep, on a large stack."""
    names = Names(record)
    state, refusal, copies = Evaluation(names.numbered), None, {}
    try:
        state.run(names.numbered)
        copies = copies_of(state)
    except model.Refuse as refused:
        refusal, state.values, state.bind = refused.n, {}, {}

    def values(i):
        """What an id was bound to, or what the matches made of an input."""
        found = dict.fromkeys(written(resolved(e, state, copies)) for e in state.values.get(i, [("var", i)]))
        return ", ".join(v for v in found if v != "v%d" % i)

    def line(i, name, what):
        return "v%d %s %s%s" % (i, name.decode(), what, " = " + values(i) if values(i) else "")

    for i in sorted(names.named):
        yield line(i, names.named[i], names.what(i))
    yield "v%d and above are made by evaluation and the passes" % names.next
    if with_copies and refusal is None:
        for i, first in sorted(state.copied.items()):
            origin = first
            while origin in state.copied:
                origin = state.copied[origin]
            if origin in names.named and i in state.values:
                yield line(i, names.named[origin], "copy of v%d" % origin)
    if refusal is not None:
        yield "refused %d" % refusal


def cases(data):
    """The cases of test_numbering: a record, and its refusal, or its next id with the ids at its nodes (0 where there is none) and its publics."""
    at = 0
    while at < len(data):
        size, answer, nodes, publics = struct.unpack_from("<4I", data, at)
        record = data[at + 16 : at + 16 + size]
        ids = struct.unpack_from("<%dI" % (nodes + publics), data, at + 16 + size)
        at += 16 + size + 4 * len(ids)
        yield record, answer - REFUSED if answer >= REFUSED else None, (answer, ids[:nodes], ids[nodes:])


def same(record, refusal, numbers):
    """Whether a record has the refusal or the ids, and each id from 9 on is some name's."""
    try:
        names = Names(record)
    except model.Refuse as refused:
        return refused.n == refusal
    ids = tuple(names.at.get(k, 0) for k in range(len(names.source.nodes)))
    every = set(range(FIRST_FREE_ID, names.next))
    return refusal is None and numbers == (names.next, ids, tuple(names.numbered.pubs)) and every == {i for i in names.named if i >= FIRST_FREE_ID}


def test(data):
    """Prints how many cases agree, and the number of each that does not; answers whether all do."""
    accepted = refused = differ = 0
    for k, (record, refusal, numbers) in enumerate(cases(data)):
        if not same(record, refusal, numbers):
            print("case %d differs" % k)
            differ += 1
        elif refusal is None:
            accepted += 1
        else:
            refused += 1
    print("%d accepted, %d refused, %d differ" % (accepted, refused, differ))
    return differ == 0 and accepted > 0


def main():
    arguments = sys.argv[1:]
    option = arguments.pop(0) if arguments and arguments[0] in ("--copies", "--test") else None
    if len(arguments) > 1 or any(a.startswith("-") for a in arguments) or (option == "--test" and not arguments):
        raise SystemExit("usage: names.py [--copies] [RECORD] | --test CASES")
    try:
        data = open(arguments[0], "rb").read() if arguments else sys.stdin.buffer.read()
        if option == "--test":
            sys.exit(not model.deep(test, data))
        print("\n".join(model.deep(lambda: list(lines(data, option == "--copies")))))
    except OSError as error:
        raise SystemExit("names.py: %s" % error)
    except model.Refuse as refusal:
        raise SystemExit("refused %d" % refusal.n)


if __name__ == "__main__":
    main()
