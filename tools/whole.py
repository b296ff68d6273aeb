#!/usr/bin/env python3
"""Says whether a constraint record is whole: whether it is as long as its header says.

    python3 tools/whole.py [RECORD]

RECORD is a constraint record, or standard input has it. A whole one leaves no output and exit status 0; else there is one line on standard error, and exit status 1. A record
that was cut off on its way would still be printed as far as it goes, with equalities missing. Nothing but the length is looked at.
"""
import struct
import sys

# the lists in the order of their counts in the header, and the words of an entry
LISTS = (("publics", 1), ("prover ids", 1), ("equalities", 8), ("kept definitions", 3), ("nodes", 4))
HEADER = 1 + len(LISTS)  # the next id, and the counts


def fault(record):
    """What keeps a record from being whole, or None."""
    if len(record) < 4 * HEADER:
        return "%d bytes, and the header alone has %d" % (len(record), 4 * HEADER)
    counts = struct.unpack_from("<%dI" % len(LISTS), record, 4)
    size = 4 * (HEADER + sum(n * words for n, (_, words) in zip(counts, LISTS)))
    if len(record) != size:
        lists = ", ".join("%d %s" % (n, name) for n, (name, _) in zip(counts, LISTS))
        return "%d bytes, and the header says %d: %s" % (len(record), size, lists)
    return None


def main():
    if len(sys.argv) > 2 or any(a.startswith("-") for a in sys.argv[1:]):
        raise SystemExit("usage: whole.py [RECORD]")
    try:
        found = fault(open(sys.argv[1], "rb").read() if len(sys.argv) == 2 else sys.stdin.buffer.read())
    except OSError as error:
        found = error
    if found is not None:
        raise SystemExit("whole.py: %s" % found)


if __name__ == "__main__":
    main()
