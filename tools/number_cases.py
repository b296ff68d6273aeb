#!/usr/bin/env python3
"""Writes crates/test_numbering/stdin: source records with the ids that the Rust gives, for the program test_numbering.

    python3 tools/number_cases.py ORACLE > crates/test_numbering/stdin

ORACLE is built around the unchanged Rust by oracle/build.sh. `ORACLE gen-src SEED COUNT KIND` prints source records in hex, a line each,
and `ORACLE numbers FILE` answers such a file with a line for each record: `refused N`, or `next N pubs I,I,.. ids I,-,..`, where
the ids are those of the numbered module at each node of the record, and `-` stands at a node with no name. Nothing is random
here but what the oracle makes from fixed seeds.
"""
import struct
import subprocess
import sys
import tempfile

from assemble import (
    APPLY, AS, CONS, CONSTANT, FUNCTION, INFIX, LET, LINK, MATCH, NEGATE, NIL, NONE, P_CONS, P_CONSTANT, P_NIL, P_PRODUCT, P_UNIT,
    P_VARIABLE, PRODUCT, SEQUENCE, UNIT, VARIABLE, Builder, pack,
)

REFUSED, UNWRITTEN = 4294901760, 0


class Record(Builder):
    """A source record by hand. Publics are texts; one that nothing has named before is out of range."""

    def use(self, text):
        return self.node(VARIABLE, self.name(text))

    def bind(self, text):
        return self.node(P_VARIABLE, self.name(text))

    def define(self, p, v):
        self.definitions.append((p, v))

    def bytes(self):
        names = list(self.names)
        return pack(names, [self.name(p) for p in self.publics], self.definitions, self.expressions, self.nodes)


def by_hand():
    """Shadowing, names used before their definition, publics repeated and defined, fresh, iter and fold bound anew, a name twice in a pattern."""
    cases = []
    r = Record()  # a let hides a global, and its own value does not see it
    for t in ("x", "fresh", "iter", "fold"):
        value = r.node(INFIX, r.use(t), r.use("y"), 3)
        body = r.node(INFIX, r.use(t), r.use("y"), 2)
        r.expressions.append(r.node(LET, r.bind(t), value, body))
        r.expressions.append(r.use(t))
    cases.append(r)
    r = Record()  # used, then defined, then used; defined twice
    r.publics += ["x", "x", "y"]
    r.expressions.append(r.use("x"))
    r.define(r.bind("y"), r.use("x"))
    r.define(r.bind("x"), r.use("x"))
    r.define(r.bind("x"), r.use("x"))
    r.expressions += [r.use("x"), r.use("y")]
    cases.append(r)
    r = Record()  # the same name twice in one pattern, and an as around it
    inner = r.node(P_PRODUCT, r.bind("a"), r.bind("a"))
    p = r.node(AS, inner, r.name("a"))
    p = r.node(P_CONS, p, r.node(AS, r.node(P_UNIT), r.name("b")))
    r.expressions.append(r.node(LET, p, r.use("a"), r.node(PRODUCT, r.use("a"), r.use("b"))))
    r.expressions.append(r.use("a"))
    cases.append(r)
    r = Record()  # parameters, arms and sequences, each with its own scope
    ps = r.chain([(r.bind("p"), 0), (r.node(AS, r.bind("q"), r.name("p")), 0), (r.node(P_NIL), 0)])
    f = r.node(FUNCTION, ps, r.node(APPLY, r.use("p"), r.use("q")))
    arms = r.chain([(r.bind("p"), r.use("p")), (r.node(P_CONSTANT, 7), r.use("p")), (r.bind("q"), r.node(CONS, r.use("q"), r.use("p")))])
    m = r.node(MATCH, r.use("p"), arms)
    items = r.chain([(f, 0), (m, 0), (r.node(NEGATE, r.use("q")), 0), (r.node(UNIT), 0), (r.node(NIL), 0), (r.node(CONSTANT, 3), 0)])
    r.define(r.bind("fold"), r.use("fold"))
    r.expressions += [r.node(SEQUENCE, items), r.use("p"), r.use("fold"), r.use("iter")]
    r.publics += ["fold", "fresh", "p"]
    cases.append(r)
    r = Record()  # none of anything; and names that only begin like fresh, iter, fold
    cases.append(r)
    r = Record()
    r.expressions += [r.use("fres"), r.use("freshh"), r.use("ite"), r.use("iterr"), r.use("folds"), r.use("Fold")]
    cases.append(r)
    return [c.bytes() for c in cases]


def generated(oracle, seed, count, kind):
    out = subprocess.run([oracle, "gen-src", str(seed), str(count), kind], capture_output=True, text=True, check=True).stdout
    return [bytes.fromhex(line) for line in out.split()]


def damaged(records):
    """Each record with one word changed or its end cut."""
    out = []
    for k, r in enumerate(records):
        words = len(r) // 4
        w = (7 * k + 3) % words
        value = (0, 1, 4294967295, 2048, 600)[k % 5]
        out.append(r[: 4 * w] + struct.pack("<I", value) + r[4 * w + 4 :])
        out.append(r[: len(r) - 1 - k % 3])
    return out


def answers(oracle, records):
    with tempfile.NamedTemporaryFile("w", suffix=".hex") as f:
        f.write("".join(r.hex() + "\n" for r in records))
        f.flush()
        return subprocess.run([oracle, "numbers", f.name], capture_output=True, text=True, check=True).stdout.splitlines()


def case(record, answer):
    words = answer.split(" ")
    if words[0] == "refused":
        return struct.pack("<4I", len(record), REFUSED + int(words[1]), 0, 0) + record
    publics = [int(i) for i in words[3].split(",") if i]
    ids = [UNWRITTEN if i == "-" else int(i) for i in words[5].split(",") if i]
    body = struct.pack("<%dI" % (len(ids) + len(publics)), *ids, *publics)
    return struct.pack("<4I", len(record), int(words[1]), len(ids), len(publics)) + record + body


def main():
    oracle = sys.argv[1]
    records = by_hand()
    records += generated(oracle, 1, 500, "mixed") + generated(oracle, 5000, 350, "rich") + generated(oracle, 9000, 200, "plain")
    records += generated(oracle, 12000, 3, "big") + generated(oracle, 13000, 3, "deep")
    records += damaged(generated(oracle, 20000, 150, "mixed"))
    for record, answer in zip(records, answers(oracle, records)):
        sys.stdout.buffer.write(case(record, answer))


if __name__ == "__main__":
    main()
