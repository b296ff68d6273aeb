"""Source records, what the Rust and the model answer to them, and the cases that the programs test_eval and test_flatten read.

Used by evaluation_cases.py, flatten_cases.py, compare_source.py, compare_flatten.py, compare_programs.py and oracle/twin_check.py. The twin (oracle/README.md) is the Rust with counters: it tells
the flat and the constraint record, or the refusal that the port meets first, and the nodes made by then. The model (oracle/model) answers where the Rust's
memory or time explodes, and gives a second opinion everywhere.

The input of test_eval is a list of groups, in little-endian words of 32 bits, bytes unpadded:

    words    length of the source record in bytes (at most 76,052, the longest legal one), number of runs (1 to 8), length of the
             expected record in bytes (at most 377,112, the longest flat record; 0: no run is accepted)
    a run    two words: length of the lent store in bytes (at most 1,048,592), expected answer: 0 for accepted, else the refusal's number
    bytes    the source record
    bytes    the expected record: the flat record of document 01, which every accepted run has to give. Its nodes stand in list order:
             definitions, then equations (left, right); each tree's nodes children first, left to right. Prover ids rise.

Each run gets a store of that length, filled beforehand with bytes that are not 0; afterwards it has to be 0, refused or not. The program prints a line
`group G run R differs: N` for each run that differs, both counted from 0, where N is what it answered: the refusal's number, or 0 for
accepted (another record, or a store that is not 0). Its last line is `A accepted, R refused, D differ`, and counts runs.

The input of test_flatten is the same but for these: the expected record is the constraint record (at most 480,000 bytes), and a run has three words: the
length of the lent store, that of the lent output (at most 480,000), and the answer. The output is filled beforehand too; behind the record, and wholly at
a refusal, it has to stay so.
"""
import collections
import os
import random
import re
import struct
import subprocess
import sys

sys.path.insert(0, os.path.join(os.path.dirname(os.path.abspath(__file__)), "..", "oracle", "model"))
import closure_modules
import directed
import model
import trees

LAST_STORE = 1048592  # one node more than document 01's 65,535, and 16 bytes
LAST_COUNT = 65535
LAST_SOURCE, LAST_FLAT, LAST_ROOM = 76052, 377112, 480000
ORACLE_KINDS = ("mixed", "plain", "rich", "big", "deep")
MODEL_KINDS = ("typed", "untyped", "closures", "lambda", "mix", "lost", "combi", "obs", "rec", "mix+", "lost+", "combi+", "obs+", "rec+")
COUNTS = re.compile(r" first=(\d+) made=(\d+) made-at-first=(\d+) ")


class Answer:
    """What to expect with a store that is never full: the refusal's number or 0, the nodes made by then, the record, by whom, and the Rust's message.

    What was met in evaluation is known where the model answered too: why it made nodes, in the words of model.py."""

    def __init__(self, number, made, record=None, by="", message="", met=frozenset()):
        self.number, self.made, self.record, self.by, self.message, self.met = number, made, record, by, message, met

    def with_store(self, store):
        """The number to expect with a store of so many bytes: 30 once the made nodes pass it."""
        return 30 if self.made > min(LAST_COUNT, store // 16) else self.number

    def lent(self, store, room=None):
        """The same with an output of so many bytes, where one is lent: 33 at the end where the record is longer."""
        number = self.with_store(store)
        return 33 if number == 0 and room is not None and room < len(self.record) else number

    def same(self, other):
        return (self.number, self.made, self.record) == (other.number, other.made, other.record)

    def __str__(self):
        return "%s, %d nodes made" % ("refused %d" % self.number if self.number else "a record of %d bytes" % len(self.record), self.made)


def run(command, text):
    return subprocess.run(command, input=text, capture_output=True, text=True, check=True).stdout


P = model.P
# the ends of 32 and of 64 bits, and multiples of the prime, with their neighbours
EDGES = [
    n
    for edge in (2**31, -(2**31), 2**32, -(2**32), 2**63 - 1, -(2**63), *(k * P for k in (1, -1, 2, -2, 3, 2**32, -(2**32), 2**32 + 2, -(2**32) - 2)))
    for n in (edge - 1, edge, edge + 1)
    if -(2**63) <= n < 2**63
]


def unreduced(n, rng):
    """A signed 64-bit number of the same element: near, at either end, or anywhere."""
    least, most = -((n + 2**63) // P), (2**63 - 1 - n) // P
    return n + P * rng.choice((*(k for k in (1, -1, 2, -2, 3) if least <= k <= most), least, most, rng.randint(least, most)))


def nodes_of(record):
    """The nodes of a legal source record, and where they start."""
    names, publics, definitions, expressions, nodes = struct.unpack_from("<5I", record)
    at = 20 + 8 * names + 4 * publics + 8 * definitions + 4 * expressions
    return at, [struct.unpack_from("<4I", record, at + 16 * k) for k in range(nodes)]


def widened(record, rng, kept=False):
    """The record with other numbers for half of its constants. Those of expressions have mostly the same element, so that a module stays accepted;
    where elements are to be kept, all have."""
    at, nodes = nodes_of(record)
    out = bytearray(record)
    for k, (kind, low, high, _) in enumerate(nodes):
        if kind not in (7, 22) or rng.random() < 0.5:
            continue
        edge = not kept and rng.random() < (0.1 if kind == 7 else 0.4)
        n = rng.choice(EDGES) if edge else unreduced(model.s64(low, high), rng)
        struct.pack_into("<q", out, at + 16 * k + 4, n)
    return bytes(out)


def wide_constants(record):
    """How many constants beyond 32 bits a legal record has, by their places."""
    _, nodes = nodes_of(record)
    names = model.parse_source(record).names
    places = {b: "as an exponent" for kind, _, b, c in nodes if kind == 4 and c == trees.EXP}
    places.update((b, "as an iter count") for kind, a, b, _ in nodes if kind == 6 and nodes[a][0] == 8 and names[nodes[a][1]] == b"iter")
    wide = [k for k, (kind, a, b, _) in enumerate(nodes) if kind in (7, 22) and not -(2**31) <= model.s64(a, b) < 2**31]
    return collections.Counter("in a pattern" if nodes[k][0] == 22 else places.get(k, "elsewhere in an expression") for k in wide)


def generated(oracle, seed, count, kind, ops=(), widen=False):
    """The records of the seeds from `seed` on: by the oracle's generator, rich in the operators `ops`, or by the model's (too long ones left out);
    to widen them is to put other numbers for half of their constants."""
    if widen:
        rng = random.Random("wide %s %d" % (kind, seed))
        return [widened(r, rng) for r in generated(oracle, seed, count, kind, ops)]
    if kind in ORACLE_KINDS:
        return [bytes.fromhex(line) for line in run([oracle, "gen-src", str(seed), str(count), kind, *ops], "").split()]
    records = (module_record(closure_modules.module(kind, random.Random(s))) for s in range(seed, seed + count))
    return [r for r in records if r is not None]


def module_record(module):
    """The record of a module, or None where it has more nodes than a record may have."""
    record = trees.record(*module)
    return record if struct.unpack_from("<I", record, 16)[0] <= 2048 else None


def accepted(record, made, by):
    """An accepted record; in a constraint record the last pass may have drawn too many ids."""
    if struct.unpack_from("<I", record)[0] > LAST_COUNT + 1:
        return Answer(32, made, by="the Rust's ids above 65,535")
    return Answer(0, made, record, by)


def answer_of(line, wanted="flat"):
    """The answer that a result line of the twin tells, or None where the Rust crashed or ran out of time. Wanted: flat or cons."""
    if line.startswith("refused "):
        return Answer(int(line.split(" ")[1]), 0, by="the reader")
    counts = COUNTS.search(line)
    if counts is None:
        return None
    first, made, made_at_first = map(int, counts.groups())
    if first:
        return Answer(first, made_at_first, by="the twin's first refusal")
    if line.startswith("panic stage=evaluate"):
        return Answer(int(re.search(r" num=(\d+) ", line).group(1)), made, by="the Rust's error", message=line.split(" msg=", 1)[1])
    return accepted(bytes.fromhex(re.search(r" %s=([0-9a-f]+) " % wanted, line).group(1)), made, "the Rust's record")


def model_answer(record, wanted="flat"):
    """The model's answer. Run it inside model.deep, on a large stack."""
    try:
        numbered = model.number_module(model.parse_source(record))
    except model.Refuse as refusal:
        return Answer(refusal.n, 0, by="the model")
    state = model.Ev(numbered, 16 * LAST_COUNT)
    try:
        state.run(numbered)
        flat = model.flat_of(state)
        written = model.write_flat(flat) if wanted == "flat" else model.write_constraint(model.passes(flat), 1 << 30)
    except model.Refuse as refusal:
        return Answer(refusal.n, state.made, by="the model", met=state.met)
    return Answer(0, state.made, written, "the model", met=state.met)


def twin_lines(twin, records, timeout=5, jobs=2):
    command = [twin, "batch", "src", "--stop", "--timeout", str(timeout), "--jobs", str(jobs)]
    return run(command, "".join(r.hex() + "\n" for r in records)).splitlines()


def answers(twin, records, timeout=5, jobs=2, wanted="flat"):
    """The answer to each record: the twin's, or the model's where the Rust has none."""
    lines = twin_lines(twin, records, timeout, jobs)
    if len(lines) != len(records):
        raise SystemExit("the twin answered %d of %d records" % (len(lines), len(records)))
    return [answer_of(line, wanted) or in_its_place(line, model_answer(record, wanted)) for line, record in zip(lines, records)]


def in_its_place(line, answer):
    """The model's answer, with how and where the Rust ended: crash or timeout in read, evaluate or passes."""
    answer.message = line.replace("stage=", "in ")
    return answer


def stores(answer, k):
    """Store lengths that tell a wrong count: just enough (in bytes up to one node more), and a node short (a byte or 16 of them)."""
    full = 16 * min(answer.made, LAST_COUNT)
    just = full + (0, 15, 7)[k % 3]
    short = full - (1, 16)[k % 2]
    return [just] if full == 0 else [just, short]


def group(record, answer, runs):
    """A group of test_eval, whose runs are lengths of stores (store,), or of test_flatten, with those of outputs (store, room)."""
    numbers = [answer.lent(*run) for run in runs]
    expected = answer.record if 0 in numbers else b""
    most = (LAST_STORE, LAST_ROOM) if len(runs[0]) == 2 else (LAST_STORE, LAST_FLAT)
    if len(record) > LAST_SOURCE or len(expected) > most[1] or len(runs) > 8 or any(n > m for run in runs for n, m in zip(run, most)):
        raise SystemExit("too long for a group: " + record.hex())
    words = [w for run, number in zip(runs, numbers) for w in (*run, number)]
    return struct.pack("<%dI" % (3 + len(words)), len(record), len(runs), len(expected), *words) + record + expected
