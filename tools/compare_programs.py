#!/usr/bin/env python3
"""Compares the programs flatten, flatten_equalities, equalities and cut_flat with the Rust: standard output and standard error byte by byte, and the exit status.

    python3 tools/compare_programs.py ORACLE TWIN BIN SEED N [KIND..] [--widen] [--jobs J] [--timeout S]

ORACLE and TWIN are built by oracle/build.sh, BIN is the folder of the proved programs (target/bin, after `tools/build.sh`). The records are those of N seeds from
SEED on, for each KIND: source records of the oracle's generator (mixed, plain, rich, big, deep) and flat records (flat); all six by default. With --widen half of
the constants of source records are other numbers, as tools/compare_source.py says.

A source record goes through flatten_equalities, and through flatten without arguments, with a store that is just full, with one that is a node short (30), with an
output that is just long enough, and with one that is a byte short (33). A flat record goes, as it is and with a word changed, through equalities, and the
oracle's command of that name has to print the same, and through cut_flat without an argument, with an output that is just long enough, and with one that is a
byte short (33). The text of a constraint record is made here, as document 01 says. Besides, each time: arguments of flatten, right and wrong; records that are none, by every rule of the reader; lists and ids at their limits and one over; inputs that are as long as any legal one, longer, or
empty; flat records and outputs as long as equalities lends, and longer.

Printed are the counts of records by cause, as in tools/compare_flatten.py, and of runs by answer. The exit status says whether anything differs.
"""
import argparse
import collections
import os
import random
import struct
import subprocess
import sys

import flat_records
from compare_flat import changed
from compare_flatten import cause
from compare_source import BATCH, SHOWN, named
from evaluation_cases import damaged, id_limits, list_limits
from flatten_cases import last_ids, no_modules
from flat_records import ADD, MULTIPLY, flat
from plain_agreement import COPY, NEGATE, element, equalities_of
from source_records import LAST_COUNT, LAST_SOURCE, ORACLE_KINDS, Answer, answers, generated, model, module_record
from trees import C, D, EQ, I, V

sys.set_int_max_str_digits(5000)  # arguments of 4,096 digits
STORE, OUTPUT = 16 * LAST_COUNT, 786712  # what flatten lends at most
LENT = 65536  # what equalities lends
SIGNS = "/|*+-=^\\%"


def term(kind, n):
    return str(element(n)) if kind else "v%d" % n


def equality_text(left, op, a, b):
    right = "-" + term(*a) if op == NEGATE else term(*a) if op == COPY else "%s %s %s" % (term(*a), SIGNS[op], term(*b))
    return "%s = %s\n" % (term(*left), right)


def text_of(record):
    """Document 01's text of a constraint record."""
    return "next %d\n" % struct.unpack_from("<I", record) + "".join(equality_text(*e) for e in equalities_of(record))


# A run: program, arguments, what is expected in words, on standard output, and on standard error.


def flatten(answer, arguments):
    number = answer.lent(*(min(n, most) for n, most in zip(arguments or (STORE,), (STORE, OUTPUT))))
    return "flatten", arguments, named(number), b"" if number else answer.record, b"refused %d\n" % number if number else b""


def printed(program, number, record):
    return program, (), named(number), b"refused %d\n" % number if number else text_of(record).encode(), b""


def source_runs(answer):
    """The runs of a source record."""
    full, room = 16 * min(answer.made, LAST_COUNT), len(answer.record or b"")
    lent = [(), (full,), (full, room)] + [(full - 16,)] * (full > 0) + [(full, room - 1)] * (room > 0)
    return [flatten(answer, arguments) for arguments in lent] + [printed("flatten_equalities", answer.lent(STORE), answer.record)]


def argument_runs(answer):
    """Arguments of flatten, right and wrong."""
    for right in ((0,), (0, 0), (STORE, 0), (STORE, OUTPUT), (STORE + 1, OUTPUT + 1), (2**64 + 16, 2**64 + 16), (10**40, 10**40), (10**4095, OUTPUT)):
        yield flatten(answer, right)
    for wrong in ("", "x", "-1", "+1", " 1", "1 ", "16:", "16/", "0x10", "1e6", "1" + "0" * 4096):
        for arguments in ((wrong,), (wrong, OUTPUT), (STORE, wrong), (STORE, OUTPUT, 7)):
            yield "flatten", arguments, "usage", b"", b"usage: flatten [STORE [OUTPUT]] < RECORD\n"


def flat_runs(answer):
    """The runs of a flat record through cut_flat: the oracle's constraint record, or its refusal."""
    if isinstance(answer, int):
        yield "cut_flat", (), named(answer), b"", b"refused %d\n" % answer
        return
    for arguments in ((), (len(answer),)):
        yield "cut_flat", arguments, named(0), answer, b""
    yield "cut_flat", (len(answer) - 1,), named(33), b"", b"refused 33\n"


SHORT = module_record((["z"], [D("y", V("x"))], [I(EQ, ("neg", V("y")), V("z"))]))


def longest():
    """A legal record that is as long as any."""
    names = ["%064d" % n for n in range(512)]
    return module_record((names[:64], [D(n, V(names[0])) for n in names], [I(EQ, V(n), C(7)) for n in names[:256]] + [C(7)] * 256))


def odd_inputs():
    """Inputs as long as any legal one, longer, and short ones."""
    most, rng = longest(), random.Random(1)
    if len(most) != LAST_SOURCE:
        raise SystemExit("the longest record has %d bytes" % len(most))
    yield from (most, most[:-1], most + b"x", most + bytes(200000))
    yield from (SHORT + more for more in (b"x", b"x" * 100000, bytes(100000)))
    yield from (SHORT[:n] for n in (1, 19, 20, len(SHORT) - 1))
    yield from (bytes(20), bytes(20) + b"x", bytes(200000), rng.randbytes(200000), most[:20] + rng.randbytes(200000))


def negated(n, e):
    return e if n == 0 else ("-", negated(n - 1, e))


def odd_flats():
    """Flat records of 65,536 bytes and a word more; the same with their outputs; the last id and one more."""
    yield from (flat(5, [(3, negated(4090, ("v", 0)))], [(("v", 0), ("v", 1))], publics=[0] * n) for n in (0, 1))
    yield from (flat(5, [], [(("v", 0), negated(2047, ("v", 1)))], publics=[0] * n) for n in (2, 3))
    yield from (flat(n, [], [(("v", 0), (ADD, (MULTIPLY, ("v", 1), ("c", -7)), ("-", ("c", 1 << 30))))]) for n in (65533, 65534, 65536, 65537))


class Comparison:
    def __init__(self, a):
        self.a = a
        self.causes, self.runs, self.differences = collections.Counter(), collections.Counter(), collections.Counter()

    def run(self, record, program, arguments, what, *wanted):
        ran = subprocess.run([os.path.join(self.a.bin, program), *map(str, arguments)], input=record, capture_output=True)
        self.runs["%s: %s" % (program, what)] += 1
        if (ran.stdout, ran.stderr, ran.returncode) != (*wanted, 0):
            self.differs("%s, expected: %s" % (program, what), arguments, record)

    def differs(self, what, arguments, record):
        self.differences[what] += 1
        if sum(self.differences.values()) <= SHOWN:
            print("differs: %s, arguments %s\n  %s" % (what, arguments, record.hex()))

    def sources(self, records):
        for record, answer in zip(records, answers(self.a.twin, records, self.a.timeout, self.a.jobs, "cons")):
            self.source(record, answer)

    def source(self, record, answer):
        self.causes["source records: " + cause(answer, OUTPUT)] += 1
        for run in source_runs(answer):
            self.run(record, *run)

    def flats(self, records):
        for record, answer in zip(records, flat_records.answers(self.a.oracle, records)):
            number = 20 if len(record) > LENT else answer if isinstance(answer, int) else 33 if len(answer) > LENT else 0
            run = printed("equalities", number, answer)
            self.causes["flat records: " + named(number)] += 1
            for each in (run, *flat_runs(answer)):
                self.run(record, *each)
            if subprocess.run([self.a.oracle, "equalities"], input=record, capture_output=True, check=True).stdout != run[3]:
                self.differs("the oracle's equalities, expected: " + named(number), (), record)

    def fixed(self):
        for run in argument_runs(answers(self.a.twin, [SHORT], wanted="cons")[0]):
            self.run(SHORT, *run)
        self.sources([*odd_inputs(), *no_modules(), *damaged(generated(self.a.oracle, 30001, 100, "mixed"))])
        self.sources([module_record(m) for _, m in (*list_limits(), *id_limits(), *last_ids())])
        self.source(b"", Answer(1, 0, by="the reader"))  # a line of the twin's input is not empty
        self.flats([*odd_flats()])

    def batch(self, kind, seed, count):
        if kind == "flat":
            records, rng = flat_records.generated(self.a.oracle, seed, count), random.Random(seed)
            self.flats(records + [changed(r, rng) for r in records])
        else:
            self.sources(generated(self.a.oracle, seed, count, kind, (), self.a.widen))


def main():
    p = argparse.ArgumentParser()
    p.add_argument("oracle")
    p.add_argument("twin")
    p.add_argument("bin")
    p.add_argument("seed", type=int)
    p.add_argument("n", type=int)
    p.add_argument("kinds", nargs="*", default=[*ORACLE_KINDS, "flat"])
    p.add_argument("--widen", action="store_true")
    p.add_argument("--jobs", type=int, default=2)
    p.add_argument("--timeout", type=int, default=5)
    a = p.parse_args()
    c = Comparison(a)
    c.fixed()
    for kind in a.kinds:
        for start in range(a.seed, a.seed + a.n, BATCH):
            c.batch(kind, start, min(BATCH, a.seed + a.n - start))
            print("%s from %d: %d differ" % (kind, start, sum(c.differences.values())), file=sys.stderr, flush=True)
    for counts in (c.causes, c.runs, c.differences):
        for what in sorted(counts):
            print("%7d  %s" % (counts[what], what))
    print("%d records, %d runs, %d differ" % tuple(sum(counts.values()) for counts in (c.causes, c.runs, c.differences)))
    return 1 if c.differences else 0


if __name__ == "__main__":
    sys.exit(model.deep(main))
