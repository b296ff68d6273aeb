#!/usr/bin/env python3
"""Times reading and numbering, the port's and the Rust's, on the same source records: docs/PERFORMANCE.md has what came out.

    python3 tools/source_times.py ORACLE [TIMES]

The port is target/bin/test_source, given a record and TIMES cases of it as it is. ORACLE is a program built around the unchanged
Rust; `ORACLE repeat FILE TIMES` reads and numbers the record of FILE (in hex) so often and prints the next id. Printed is the
processor time of each whole run, divided by TIMES: the least of three runs.
"""
import resource
import struct
import subprocess
import sys
import tempfile

from number_cases import CONSTANT, INFIX, LET, NEGATE, UNIT, Record
from source_damage import BASE, NO_WORD, answer

ADD, EQUAL = 3, 5


def processor_time(command, stdin=None):
    before = resource.getrusage(resource.RUSAGE_CHILDREN)
    out = subprocess.run(command, stdin=stdin, capture_output=True, text=True, check=True).stdout
    after = resource.getrusage(resource.RUSAGE_CHILDREN)
    return after.ru_utime + after.ru_stime - before.ru_utime - before.ru_stime, out


def measure(what, record, oracle, times):
    next_id = answer(record)
    with tempfile.NamedTemporaryFile() as cases, tempfile.NamedTemporaryFile("w") as text:
        cases.write(struct.pack("<6I", BASE, len(record), 0, 0, 0, 0) + record)
        cases.write(struct.pack("<6I", len(record), next_id, NO_WORD, 0, NO_WORD, 0) * times)
        text.write(record.hex() + "\n")
        cases.flush()
        text.flush()
        port, rust = [], []
        for _ in range(3):
            with open(cases.name, "rb") as stdin:
                took, out = processor_time(["target/bin/test_source"], stdin)
            assert out.startswith("%d accepted" % times), out
            port.append(took)
            took, out = processor_time([oracle, "repeat", text.name, str(times)])
            assert int(out) == next_id, out
            rust.append(took)
    us = 1e6 / times
    print("%-52s %6d bytes %8.0f us %8.0f us %6.2f" % (what, len(record), min(port) * us, min(rust) * us, min(port) / min(rust)), flush=True)


def lets(nodes):
    """One let after another, 8 nodes each, over 16 names."""
    r = Record()
    for k in range(16):
        r.name("n%d" % k)
    for k in range(nodes // 8):
        value = r.node(INFIX, r.use("n%d" % (k % 16)), r.node(CONSTANT, k), ADD)
        body = r.node(INFIX, r.use("n%d" % (3 * k % 16)), r.use("n%d" % (5 * k % 16)), EQUAL)
        r.expressions.append(r.node(LET, r.bind("n%d" % (3 * k % 16)), value, body))
    return r.bytes()


def nested(nodes):
    """Lets of 4 nodes, each in the body of the one before, each with a name of its own."""
    r = Record()
    bound = [(r.bind("n%d" % k), r.node(NEGATE, r.node(CONSTANT, k))) for k in range(nodes // 4)]
    body = r.node(UNIT)
    for p, v in reversed(bound):
        body = r.node(LET, p, v, body)
    r.expressions.append(body)
    return r.bytes()


def named(count, before, after):
    """Names that differ in three bytes, used once each."""
    r = Record()
    r.expressions += [r.use(before + "%03x" % k + after) for k in range(count)]
    return r.bytes()


def main():
    oracle, times = sys.argv[1], int(sys.argv[2]) if len(sys.argv) > 2 else 2000
    sys.setrecursionlimit(10000)
    for n in (256, 512, 1024, 2048):
        measure("%d nodes, lets one after another" % n, lets(n), oracle, times)
    for n in (253, 509, 1021, 2045):
        measure("%d nodes, lets in each other" % n, nested(n), oracle, times)
    for n in (64, 128, 256, 512):
        measure("%d names of 3 bytes" % n, named(n, "", ""), oracle, times)
    for n in (64, 128, 256, 512):
        measure("%d names of 64 bytes, the first three differ" % n, named(n, "", "n" * 61), oracle, times)
    for n in (64, 128, 256, 512):
        measure("%d names of 64 bytes, the last three differ" % n, named(n, "n" * 61, ""), oracle, times)


if __name__ == "__main__":
    main()
