#!/usr/bin/env python3
"""Checks that the twin gives the oracle's answers, and that the model gives the twin's numbers, flat and constraint records and made nodes.

    python3 oracle/twin_check.py ORACLE TWIN SEED N [KIND..]

for the records of N seeds from SEED on, of each kind (by default all of the oracle's generator). Prints what differs, and counts.
"""
import collections
import os
import re
import sys

sys.path.insert(0, os.path.join(os.path.dirname(os.path.abspath(__file__)), "..", "tools"))
from source_records import ORACLE_KINDS, answer_of, generated, model, model_answer, run, twin_lines

ADDED = re.compile(r" first=\d+ made=\d+ made-at-first=\d+ expansions=\d+ depth=\d+ look=\d+")


def check(oracle, twin, records, counts):
    text = "".join(r.hex() + "\n" for r in records)
    plain = run([oracle, "batch", "src", "--timeout", "5"], text).splitlines()
    counted = run([twin, "batch", "src", "--timeout", "5"], text).splitlines()
    stopped = twin_lines(twin, records)
    for record, a, b, c in zip(records, plain, counted, stopped):
        ended = not a.startswith(("timeout", "crash")) and not b.startswith(("timeout", "crash"))
        if ended and ADDED.sub("", b) != a:
            counts["the twin differs from the oracle"] += 1
            print("twin:", record.hex(), a[:200], b[:200], sep="\n  ")
        compare(record, c, counts)


def compare(record, line, counts):
    """The model's answers against a line of the twin."""
    for wanted in ("flat", "cons"):
        known, second = answer_of(line, wanted), model_answer(record, wanted)
        if known is None:
            counts["no answer of the Rust, by the model refused %d" % second.number] += 1
            return
        if not known.same(second):
            counts["the model differs from the twin"] += 1
            print("model, %s:" % wanted, record.hex(), known, second, sep="\n  ")
            return
    counts[known.by + (" %d" % known.number if known.number else "")] += 1


def main(oracle, twin, seed, n, *kinds):
    for kind in kinds or ORACLE_KINDS:
        counts = collections.Counter()
        for start in range(int(seed), int(seed) + int(n), 1000):
            check(oracle, twin, generated(oracle, start, min(1000, int(seed) + int(n) - start), kind), counts)
        print("%s:" % kind, ", ".join("%d %s" % (counts[k], k) for k in sorted(counts)))


model.deep(main, *sys.argv[1:])
