#!/usr/bin/env python3
"""Compares a program of the port with the Rust on generated source records, and prints the counts by cause.

    python3 tools/compare_source.py TWIN PROGRAM SEED N [KIND..] [--ops LIST] [--widen] [--model] [--jobs J] [--timeout S]

TWIN is built by oracle/build.sh. PROGRAM reads groups as tools/source_records.py says (test_eval). The records are those of N seeds from SEED on, for
each KIND: those of the oracle's generator (mixed, plain, rich, big, deep: all five by default) or of the model's (typed, untyped, closures, lambda,
mix, lost, combi, obs, rec, and the last five with +); the kind `directed` is every directed module, whatever the seeds. Each record is run with a store that
is just full, one that is a node short, and one of random length. With --ops, as 7,8, the oracle's kinds are rich in these operators. With --widen half of the
constants, those of exponents, iter counts and patterns too, are other numbers: most of the same element, the others ends of 32 and 64 bits and neighbours of the
prime's multiples (`widened`, tools/source_records.py); how many lie beyond 32 bits, with or without it, is printed at the end.

Where the Rust runs out of time (S seconds, by default 5) or memory the model answers. With --model its answer is compared everywhere, and a difference
between it and the Rust is counted too. The first records that differ are printed. The exit status says whether any does.
"""
import argparse
import collections
import random
import subprocess
import sys

from source_records import LAST_STORE, ORACLE_KINDS, answers, directed, generated, group, model, model_answer, module_record, stores, wide_constants

BATCH = 1000
SHOWN = 10


def arguments():
    """The arguments, which compare_flatten.py has too."""
    p = argparse.ArgumentParser()
    p.add_argument("twin")
    p.add_argument("program")
    p.add_argument("seed", type=int)
    p.add_argument("n", type=int)
    p.add_argument("kinds", nargs="*", default=ORACLE_KINDS)
    p.add_argument("--ops", type=lambda text: ["--ops", text], default=[])
    p.add_argument("--widen", action="store_true")
    p.add_argument("--model", action="store_true")
    p.add_argument("--jobs", type=int, default=2)
    p.add_argument("--timeout", type=int, default=5)
    return p.parse_args()


def batches(a):
    """Kind, first seed and records of each batch."""
    for kind in a.kinds:
        if kind == "directed":
            yield kind, 0, [r for r in (module_record(m) for _, m in directed.CASES) if r is not None]
            continue
        for start in range(a.seed, a.seed + a.n, BATCH):
            yield kind, start, generated(a.twin, start, min(BATCH, a.seed + a.n - start), kind, a.ops, a.widen)


def wide_line(counts):
    return "constants beyond 32 bits: " + ", ".join("%d %s" % (counts[place], place) for place in sorted(counts))


def lengths(answer, k, rng):
    """The stores of a record's runs."""
    return [(n,) for n in stores(answer, k) + [any_store(answer, k, rng)]]


def any_store(answer, k, rng):
    return rng.randrange(16 * min(answer.made, 65535) + 64) if k % 20 else LAST_STORE


def named(number):
    return "refused %d" % number if number else "accepted"


def replay(program, records, known, lent):
    """Runs the program on the records, and answers what differs: record, lent lengths, answer to expect, answered number."""
    data = b"".join(map(group, records, known, lent))
    said = subprocess.run([program], input=data, capture_output=True, check=True).stdout.decode().splitlines()
    accepted, refused, differ = (int(part.split()[0]) for part in said[-1].split(", "))
    if accepted + refused + differ != sum(map(len, lent)) or differ != len(said) - 1:
        raise SystemExit("%s saw %d of %d runs" % (program, accepted + refused + differ, sum(map(len, lent))))
    out = []
    for line in said[:-1]:
        _, g, _, r, _, answered = line.replace(":", "").split()
        out.append((records[int(g)], lent[int(g)][int(r)], known[int(g)], int(answered)))
    return out


def different(answer, run, answered):
    """What differs in a run."""
    wanted = answer.lent(*run)
    return "another record, output or store" if wanted == answered else "%s for %s" % (named(answered), named(wanted))


def differences(a, kind, start, records, counts):
    """The causes of what differs in a batch, each with its record and store."""
    known = answers(a.twin, records, a.timeout, a.jobs)
    rng = random.Random("%s %d" % (kind, start))
    lent = [lengths(answer, k, rng) for k, answer in enumerate(known)]
    for answer, runs in zip(known, lent):
        counts.update("%s by %s" % (named(answer.lent(*r)), "the made nodes" if answer.lent(*r) != answer.number else answer.by) for r in runs)
    for record, run, answer, answered in replay(a.program, records, known, lent):
        yield "%s, by %s" % (different(answer, run, answered), answer.by), record, run
    for record, answer in zip(records, known) if a.model else ():
        second = model_answer(record)
        if not answer.same(second):
            yield "the model: %s, %s: %s" % (second, answer.by, answer), record, (LAST_STORE,)


def main():
    a = arguments()
    causes, wide, seen = collections.Counter(), collections.Counter(), 0
    for kind, start, records in batches(a):
        counts = collections.Counter()
        wide.update(place for r in records for place in wide_constants(r).elements())
        for cause, record, run in differences(a, kind, start, records, counts):
            causes[cause] += 1
            if sum(causes.values()) <= SHOWN:
                print("differs: %s; %s from seed %d, store %d\n  %s" % (cause, kind, start, run[0], record.hex()))
        seen += len(records)
        print("%s from %d: %d records, runs %s" % (kind, start, len(records), ", ".join("%d %s" % (counts[k], k) for k in sorted(counts))), flush=True)
    for cause, n in causes.most_common():
        print("%d times: %s" % (n, cause))
    print(wide_line(wide))
    print("%d records, %d differences" % (seen, sum(causes.values())))
    return 1 if causes else 0


if __name__ == "__main__":
    sys.exit(model.deep(main))
