#!/usr/bin/env python3
"""Writes crates/test_flatten/stdin: source records with the constraint records or errors of the Rust, for the program test_flatten.

    python3 tools/flatten_cases.py ORACLE TWIN > crates/test_flatten/stdin

ORACLE and TWIN are built by oracle/build.sh. The records are chosen, and their answers held to oracle, twin and model alike, as in
tools/evaluation_cases.py; the plain modules are checked by tools/plain_agreement.py as well. Nearly every accepted record has three runs: with a store and an
output that are just full, with a store that is a node short (30), and with an output that is a byte short (33). Counts go to standard error.
"""
import sys

from evaluation_cases import (
    REFUSED, X, Y, Writer, accepted, damaged, hand_made, id_limits, list_limits, modules, negated, numbered, places, powers, wide, write_counts,
)
from plain_agreement import judged, modules as plain_modules, record_of
from source_records import LAST_STORE, MODEL_KINDS, directed, generated, model, stores
from assemble import pack
from trees import A, D, EQ, F, I, V

LONGEST = 40000  # records and constraint records that are longer are left to compare_flatten.py


class FlattenWriter(Writer):
    wanted = "cons"

    def lengths(self, answer):
        room, k = len(answer.record or b""), self.groups
        runs = [(n, room + (0, 0, 37)[k % 3]) for n in stores(answer, k)]
        if room:
            runs.append((runs[0][0], room - 1))
        return runs + [(LAST_STORE, (0, room)[k % 2])] * (k % 25 == 0)

    def put(self, record, answer):
        if len(record) <= LONGEST and len(answer.record or b"") <= LONGEST:
            super().put(record, answer)


def no_modules():
    """1 to 6."""
    whole = pack([b"x"], [], [], [], [])
    yield from (bytes(1), bytes(19), whole[:-1], bytes(20) + b"x")
    yield pack([], [], [], [], [])[:16] + (2049).to_bytes(4, "little")
    yield from (pack([name], [], [], [], []) for name in (b"", b"X" * 300, b"0"))
    yield pack([b"x", b"y", b"x"], [], [], [], [])
    yield from (pack([], [], [], [], [node]) for node in ((15, 0, 0, 0), (7, 0, 0, 1), (5, 0, 0, 0), (7, 1, 0, 0)))


def last_ids():
    """The last pass draws four ids: its last is 65,535; one more (32, before 33); all are over; and one is over in evaluation already."""
    for number, n in ((0, 19), (32, 20), (32, 23), (32, 24)):
        wide, more = D("f", F(["p%d" % i for i in range(500)], X)), D("g", F(["p%d" % i for i in range(n)], X))
        yield number, ([], [wide, more], [A(V("f"), X)] * 130 + [I(EQ, negated(4, X), Y)])


# seed, seeds, kind, bytes at most, records
GENERATED = (
    (101, 400, "mixed", 3000, 60), (5101, 400, "rich", 3000, 60), (9101, 300, "plain", 2500, 40), (12101, 200, "big", 12000, 12), (13101, 200, "deep", 12000, 8),
    *((101, 60, kind, 4000, 8) for kind in MODEL_KINDS if not kind.endswith("+")),
)


def write(oracle, twin):
    w = FlattenWriter(oracle, twin, sys.stdout.buffer)
    w.put_all(hand_made(oracle))
    w.put_all([*no_modules()])
    for number, made in REFUSED.items():
        w.put_all(modules(made()), number)
    w.put_all(modules((*accepted(), *wide(), *powers(), *places())), 0)
    w.put_numbered(numbered((*list_limits(), *id_limits(), *last_ids(), *((directed.NUMBERS[name], m) for name, m in directed.CASES[::4]))))
    for chosen in GENERATED:
        w.put_small(*chosen)
    w.put_all([*damaged([r for r in generated(oracle, 30101, 60, "mixed") if len(r) < 900])])
    plain(w, 9000000, 150)
    write_counts(w)


def plain(w, seed, n):
    """Plain modules, each with equalities that agree with its equations."""
    chosen = plain_modules(seed, n)
    records = [record_of(m) for m in chosen]
    for m, record, answer in zip(chosen, records, w.answers(records)):
        if judged(m, answer)[1]:
            raise SystemExit("the equalities differ from the equations: " + record.hex())
        w.put(record, answer)


if __name__ == "__main__":
    model.deep(write, *sys.argv[1:])
