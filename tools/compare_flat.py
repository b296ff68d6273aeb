#!/usr/bin/env python3
"""Compares the compiled program test_flat with the oracle on generated flat records, and prints the counts by answer.

    python3 tools/compare_flat.py ORACLE SEED N [KIND] [--ops LIST]

ORACLE is the oracle, built from the unchanged Rust by oracle/build.sh (tools/flat_records.py says what it has to answer). Run it at the top of
the repository, after `tools/build.sh test_flat`. The records are those of the seeds from SEED on: random flat records, or with
KIND (mixed, plain, rich, big, deep) those that evaluation makes of N random modules of that kind; with --ops, as 7,8, rich in these operators. Each goes
in once as it is and once with a word changed, and these are counted apart; every third output is just long enough, and every third a byte short. A record
that differs is printed.
"""
import argparse
import collections
import random
import subprocess
import sys

from flat_records import answers, case, generated, generated_modules, pack, unpack

REPLAY = "target/bin/test_flat"
BATCH = 2000
STORES = (0, 1, 16, 1000)


def changed(record, rng):
    """The record with one word changed: to another word of it, to a boundary value, or by one."""
    w = unpack(record)
    k = rng.randrange(min(len(w), 6)) if rng.random() < 0.2 else rng.randrange(len(w))
    w[k] = rng.choice([rng.choice(w), rng.choice([0, 1, 4, 5, 7, 8, 65535, 65536, 2**31, 2**32 - 1]), (w[k] + 1) % 2**32, (w[k] - 1) % 2**32])
    return pack(w)


def room(answer, k):
    if isinstance(answer, int):
        return 40
    return (len(answer) + 100, len(answer), len(answer) - 1)[k % 3]


def kind(answer, lent):
    if isinstance(answer, int):
        return "refused %d" % answer
    return "accepted" if len(answer) <= lent else "refused 33"


def compare(oracle, records, counts):
    """Runs the cases of the records, adds their answers to the counts, and answers which differ."""
    known = answers(oracle, records)
    rooms = [room(a, k) for k, a in enumerate(known)]
    cases = b"".join(case(r, n, STORES[k % 4], a) for k, (r, n, a) in enumerate(zip(records, rooms, known)))
    counts.update(map(kind, known, rooms))
    said = subprocess.run([REPLAY], input=cases, capture_output=True, check=True).stdout.decode().splitlines()
    accepted, refused, differ = (int(part.split()[0]) for part in said[-1].split(", "))
    if accepted + refused + differ != len(records):
        raise SystemExit("test_flat saw %d of %d cases" % (accepted + refused + differ, len(records)))
    return [records[int(line.split()[1])] for line in said[:-1]]


def main():
    p = argparse.ArgumentParser()
    p.add_argument("oracle")
    p.add_argument("seed", type=int)
    p.add_argument("n", type=int)
    p.add_argument("kind", nargs="?")
    p.add_argument("--ops", type=lambda text: ["--ops", text], default=[])
    a = p.parse_args()
    as_it_is, damaged, different = collections.Counter(), collections.Counter(), []
    for start in range(a.seed, a.seed + a.n, BATCH):
        count = min(BATCH, a.seed + a.n - start)
        records = generated_modules(a.oracle, start, count, a.kind, a.ops) if a.kind else generated(a.oracle, start, count, a.ops)
        rng = random.Random(start)
        different += compare(a.oracle, records, as_it_is)
        different += compare(a.oracle, [changed(r, rng) for r in records], damaged)
    for record in different:
        print("differs:", record.hex())
    for title, counts in (("as they are", as_it_is), ("with a word changed", damaged)):
        print("%d records %s: %s" % (sum(counts.values()), title, ", ".join("%d %s" % (counts[k], k) for k in sorted(counts))))
    print("%d differ" % len(different))
    sys.exit(1 if different else 0)


if __name__ == "__main__":
    main()
