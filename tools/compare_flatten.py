#!/usr/bin/env python3
"""Compares program test_flatten with the Rust on generated source records, from the record to its constraint record, and prints the counts by cause.

    python3 tools/compare_flatten.py TWIN PROGRAM SEED N [KIND..] [--ops LIST] [--widen] [--model] [--jobs J] [--timeout S]

The arguments, the kinds and what answers where the Rust has no answer are those of tools/compare_source.py; with --model the model's constraint record is
compared too. Each record is run with a store and an output that are just full, a store that is a node short (30), an output that is a byte short (33),
and a store and an output of random lengths. Compared are the answer, the constraint record byte by byte, the output behind it or at a refusal, and the
store.

Printed are counts of records: what the Rust gives and what the port, the Rust's errors and panics by message, the differences that
docs/DIFFERENCES.md explains by its rows, and those that it does not; then counts of runs. The exit status says whether there are unexplained ones.
"""
import collections
import random
import re
import sys

from compare_source import SHOWN, any_store, arguments, batches, different, named, replay, wide_line
from source_records import LAST_ROOM, LAST_STORE, answers, model, model_answer, stores, wide_constants

# The rows of docs/DIFFERENCES.md, by the number that the port gives where the Rust goes on.
ROWS = {18: "18, arithmetic on no number", 19: "19, depth", 30: "30, made nodes", 31: "31, flat lists", 32: "32, ids"}


def room(answer, k, rng):
    """An output that is not too short, and too long by less than 64 bytes."""
    return min(len(answer.record or b"") + rng.randrange(64) * (k % 2), LAST_ROOM)


def lengths(answer, k, rng):
    """Store and output of a record's runs."""
    runs = [(n, room(answer, k, rng)) for n in stores(answer, k)]
    if answer.record:
        runs.append((LAST_STORE if k % 20 == 0 else runs[0][0], min(len(answer.record), LAST_ROOM + 1) - 1))
    return runs + [(any_store(answer, k, rng), rng.randrange(min(2 * len(answer.record or b"") + 64, LAST_ROOM)))]


def message(text):
    """The Rust's message, without what differs from record to record."""
    text = re.sub(r"called `Result::unwrap\(\)` on an `Err` value: ", "", text)
    return re.sub(r"-?\d+ (\S+) -?\d+", r"a \1 b", text)[:70]


def cause(answer, most=LAST_ROOM):
    """Why the port gives the answer, and whether it is a difference by docs/DIFFERENCES.md; most: the longest output that the program lends."""
    if answer.by == "the reader":
        return "no module: refused %d by the reader" % answer.number
    if answer.by == "the Rust's record":
        return "accepted by both" if len(answer.record) <= most else "accepted by the Rust, too long a record for the program: 33"
    if answer.by == "the Rust's error":
        return "refused by both: %d, %s" % (answer.number, message(answer.message))
    if answer.by == "the model":
        return "the Rust has no answer (%s), the port %s by the model" % (answer.message, named(answer.number))
    return "DIFFERENCES.md: " + ROWS.get(answer.number, "errors in a plain sequence")


def compare(a, kind, start, records, counts, runs):
    """Counts a batch, and answers what differs, each with its record and lent lengths."""
    known = answers(a.twin, records, a.timeout, a.jobs, "cons")
    rng = random.Random("%s %d" % (kind, start))
    lent = [lengths(answer, k, rng) for k, answer in enumerate(known)]
    counts.update(map(cause, known))
    for answer, lengths_of in zip(known, lent):
        runs.update(answer.lent(*run) for run in lengths_of)
    for record, run, answer, answered in replay(a.program, records, known, lent):
        yield "%s, %s" % (different(answer, run, answered), cause(answer)), record, run
    for record, answer in zip(records, known) if a.model else ():
        second = model_answer(record, "cons")
        if not answer.same(second):
            yield "the model: %s, %s: %s" % (second, answer.by, answer), record, (LAST_STORE, LAST_ROOM)


def main():
    a = arguments()
    totals, runs, unexplained, seen, wide = (collections.Counter() for _ in range(5))
    for kind, start, records in batches(a):
        wide.update(place for r in records for place in wide_constants(r).elements())
        for what, record, run in compare(a, kind, start, records, totals, runs):
            unexplained[what] += 1
            if sum(unexplained.values()) <= SHOWN:
                print("differs: %s; %s from seed %d, store and output %s\n  %s" % (what, kind, start, run, record.hex()))
        seen[kind] += len(records)
        print("%s to %d: %d records, %d unexplained" % (kind, start, seen[kind], sum(unexplained.values())), file=sys.stderr, flush=True)
    for what in sorted(totals):
        print("%7d  %s" % (totals[what], what))
    print("runs: " + ", ".join("%d %s" % (runs[n], named(n)) for n in sorted(runs)))
    print(wide_line(wide))
    for what, n in unexplained.most_common():
        print("%7d  unexplained: %s" % (n, what))
    print("%s: %d records, %d runs, %d unexplained" % (" ".join(seen), sum(seen.values()), sum(runs.values()), sum(unexplained.values())))
    return 1 if unexplained else 0


if __name__ == "__main__":
    sys.exit(model.deep(main))
