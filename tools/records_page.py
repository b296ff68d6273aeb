#!/usr/bin/env python3
"""Holds docs/RECORDS.md to the files and the model.

    python3 tools/records_page.py

The page shows three records in hex, each in a block whose first line names a file that the gate replays; the bytes have to be exactly those of the file. In its table of evaluation's refusals a row
may end with the text of a module: the model (oracle/model) has to refuse that module by the row's number. Each difference is a line, the last one counts what was compared, and the exit status is 1 where
anything differs or is missing.
"""
import os
import re
import sys

import assemble
from source_records import model, model_answer

TOP = os.path.join(os.path.dirname(os.path.abspath(__file__)), "..")
PAGE = os.path.join(TOP, "docs", "RECORDS.md")
FILES = ("crates/flatten/stdin", "crates/equalities/stdin", "crates/flatten/stdout")
EVALUATION = range(10, 20)  # the refusals that have to have a module
BLOCK = re.compile(r"^```hex (\S+)\n(.*?)^```$", re.MULTILINE | re.DOTALL)
BYTES = re.compile(r"((?:[0-9a-f]{2} )*[0-9a-f]{2})(?:  .*)?")  # two spaces end the bytes of a line
ROW = re.compile(r"^\| (\d+) \|(?:[^|]*\|){3} `([^`|]*)` \|$", re.MULTILINE)  # five cells; no other table ends so


def bytes_of(block):
    """The bytes that stand at the fronts of the lines; a line without any is a fault."""
    return b"".join(bytes.fromhex(BYTES.fullmatch(line).group(1)) for line in block.splitlines())


def block_faults(page):
    blocks = BLOCK.findall(page)
    if sorted(name for name, _ in blocks) != sorted(FILES):
        yield "the blocks are not those of " + ", ".join(FILES)
    for name, block in blocks:
        try:
            shown = bytes_of(block)
        except AttributeError:
            yield "%s: a line of the block does not begin with bytes" % name
            continue
        with open(os.path.join(TOP, name), "rb") as f:
            held = f.read()
        if shown != held:
            at = next((k for k, (a, b) in enumerate(zip(shown, held)) if a != b), min(len(shown), len(held)))
            yield "%s: the block has %d bytes, the file %d, and they differ from byte %d on" % (name, len(shown), len(held), at)


def refusal_faults(page):
    rows = [(int(number), text) for number, text in ROW.findall(page)]
    for number in sorted(set(EVALUATION) - {n for n, _ in rows}):
        yield "no module for %d" % number
    for number, text in rows:
        answer = model_answer(assemble.assembled(text.encode()))
        if answer.number != number:
            yield "%s: %s, not refused %d" % (text, answer, number)


def main():
    if len(sys.argv) > 1:
        raise SystemExit("usage: records_page.py")
    with open(PAGE, encoding="utf-8") as f:
        page = f.read()
    try:
        found = model.deep(lambda: [*block_faults(page), *refusal_faults(page)])
    except (OSError, assemble.Wrong) as error:
        raise SystemExit("records_page.py: %s" % error)
    for fault in found:
        print(fault)
    print("%d records, %d refusals, %d differences" % (len(BLOCK.findall(page)), len(ROW.findall(page)), len(found)))
    sys.exit(bool(found))


if __name__ == "__main__":
    main()
