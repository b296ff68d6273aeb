"""Flat records, the oracle's answers to them, and the cases that the program test_flat reads.

Used by flat_cases.py, compare_flat.py and compare_programs.py. The oracle is the unchanged Rust with a reader and a writer of document 01's
records around it: `oracle batch flat` answers a hexadecimal flat record a line by `ok cons=HEX`, the constraint record, or by
`refused N`; `oracle gen-flat SEED COUNT` and `gen-src SEED COUNT KIND` print random records (with `--ops LIST` rich in these operators), `batch src`
answers source records with their flat records, and `asm FILE` turns a module's text form into a source record.

An expression is a tuple: ("v", id), ("c", number), ("-", e), or (operator 0 to 8, e, e).
"""
import itertools
import struct
import subprocess

REFUSED = 4294901760
LAST_NEXT = 65536
LONGEST = 377112
# the words of an entry: publics, prover ids, definitions, equations, nodes; a definition and an equation end with their place
WIDTHS = (1, 1, 3, 3, 4)
DIVIDE, DIVIDE_Z, MULTIPLY, ADD, SUBTRACT, EQUAL, POWER, INT_DIVIDE, MODULO = range(9)


def pack(words):
    return struct.pack("<%dI" % len(words), *words)


def unpack(record):
    return list(struct.unpack("<%dI" % (len(record) // 4), record[: len(record) // 4 * 4]))


def put_nodes(root, nodes):
    """Puts the tree's nodes behind the others, children first, and answers the root's index. A loop, for deep trees."""
    done, todo = [], [(root, False)]
    while todo:
        e, children_done = todo.pop()
        if e[0] == "v":
            nodes.append((8, e[1], 0, 0))
        elif e[0] == "c":
            nodes.append((7, e[1] % 2**32, 0, 0))
        elif not children_done:
            todo.append((e, True))
            todo.extend((child, False) for child in reversed(e[1:]))
            continue
        elif e[0] == "-":
            nodes.append((5, done.pop(), 0, 0))
        else:
            right, left = done.pop(), done.pop()
            nodes.append((4, left, right, e[0]))
        done.append(len(nodes) - 1)
    return done[0]


def flat(next_id, definitions=(), equations=(), provers=(), publics=(), places=None):
    """A flat record. Definitions are pairs (id, expression), equations pairs of expressions; their places, in this order, count from 0 if none are given."""
    nodes, lists = [], []
    places = itertools.count() if places is None else iter(places)
    for v, e in definitions:
        lists += [v, put_nodes(e, nodes), next(places)]
    for left, right in equations:
        lists += [put_nodes(left, nodes), put_nodes(right, nodes), next(places)]
    header = [next_id, len(publics), len(provers), len(definitions), len(equations), len(nodes)]
    return pack(header + list(publics) + list(provers) + lists + [w for n in nodes for w in n])


def lists_of(record):
    """The lists of a record whose length and counts are right."""
    w = unpack(record)
    at, out = 6, []
    for count, width in zip(w[1:6], WIDTHS):
        out.append([w[at + width * k : at + width * (k + 1)] for k in range(count)])
        at += width * count
    return [[p[0] for p in out[0]], [p[0] for p in out[1]]] + out[2:]


def fits(kind, a, b, c, k, next_id):
    if kind == 4:
        return a < k and b < k and c <= 8
    if kind == 5:
        return a < k and b == 0 and c == 0
    return kind in (7, 8) and b == 0 and c == 0 and (kind == 7 or a < next_id)


def refusal(record):
    """20, 21 or 22 by document 01's rules, or None: a reading of its own, to hold the oracle's reader to."""
    if len(record) < 24:
        return 20
    next_id, *counts = unpack(record[:24])
    if any(n > most for n, most in zip(counts, (64, 4096, 4096, 4096, 16384))):
        return 20
    if len(record) != 24 + 4 * sum(n * width for n, width in zip(counts, WIDTHS)):
        return 20
    publics, provers, definitions, equations, nodes = lists_of(record)
    ids = publics + provers + [v for v, _, _ in definitions]
    if next_id > LAST_NEXT or any(v >= next_id for v in ids) or any(a >= b for a, b in zip(provers, provers[1:])):
        return 21
    if not all(fits(*node, k, next_id) for k, node in enumerate(nodes)):
        return 21
    sides = [pair[:2] for pair in equations]
    roots = [n for _, n, _ in definitions] + [n for pair in sides for n in pair]
    children = [x for kind, a, b, _ in nodes for x in ((a, b) if kind == 4 else (a,) if kind == 5 else ())]
    if sorted(roots + children) != list(range(len(nodes))):
        return 21
    uses, bad = [], []
    for kind, a, b, c in nodes:
        below = (a, b) if kind == 4 else (a,) if kind == 5 else ()
        uses.append({a} if kind == 8 else set().union(*(uses[x] for x in below)))
        bad.append((kind == 4 and c in (EQUAL, POWER)) or any(bad[x] for x in below))
        for x in below:
            uses[x] = None
    later = set()
    for v, n, _ in reversed(definitions):
        if v in later or uses[n] & (later | {v}):
            return 21
        later.add(v)
    reached = set().union(*(uses[n] for pair in sides for n in pair))
    wrong = any(bad[n] for pair in sides for n in pair)
    for v, n, _ in reversed(definitions):
        if v in reached and v not in provers:
            reached |= uses[n]
            wrong = wrong or bad[n]
    return 22 if wrong else None


def answers(oracle, records):
    """Of each record its refusal, or its constraint record, by the oracle; 20 to 22 by the reading above too."""
    text = "".join(r.hex() + "\n" for r in records if r)
    lines = iter(subprocess.run([oracle, "batch", "flat"], input=text, capture_output=True, text=True, check=True).stdout.splitlines())
    out = []
    for r in records:
        line = next(lines) if r else "refused 20"
        kind, rest = line.split(" ", 1)
        number = int(rest) if kind == "refused" else None
        if number != refusal(r):
            raise SystemExit("the readings differ, %s and %s, on %s" % (number, refusal(r), r.hex()))
        if number is None:
            cons = bytes.fromhex(rest.split("cons=")[1].split(" ")[0])
            out.append(32 if unpack(cons[:4])[0] > LAST_NEXT else cons)
        else:
            out.append(number)
    if next(lines, None) is not None:
        raise SystemExit("the oracle answered too many lines")
    return out


def case(record, room, store, answer):
    """A case of test_flat: the record, the lengths lent, and the answer, a constraint record or a number."""
    if isinstance(answer, bytes) and len(answer) <= room:
        return pack([len(record), room, store, len(answer)]) + record + answer
    number = 33 if isinstance(answer, bytes) else answer
    return pack([len(record), room, store, REFUSED + number]) + record


def generated(oracle, seed, count, ops=()):
    """Random lent flat records."""
    text = subprocess.run([oracle, "gen-flat", str(seed), str(count), *ops], capture_output=True, text=True, check=True).stdout
    return [bytes.fromhex(line) for line in text.split()]


def evaluated(oracle, sources):
    """The flat records that the Rust's evaluation makes of source records: hexadecimal lines."""
    text = subprocess.run([oracle, "batch", "src"], input=sources, capture_output=True, text=True, check=True).stdout
    words = [w for line in text.splitlines() if line.startswith("ok ") for w in line.split(" ")]
    return [bytes.fromhex(w[5:]) for w in words if w.startswith("flat=") and w != "flat=nonflat"]


def generated_modules(oracle, seed, count, kind="mixed", ops=()):
    """The flat records of random modules, without those that are longer than any legal one: the Rust has no limit."""
    text = subprocess.run([oracle, "gen-src", str(seed), str(count), kind, *ops], capture_output=True, text=True, check=True).stdout
    return [r for r in evaluated(oracle, text) if len(r) <= LONGEST]


def hand_made_modules(oracle, files):
    """The flat records of modules in the oracle's text form."""
    lines = [subprocess.run([oracle, "asm", f], capture_output=True, text=True, check=True).stdout for f in files]
    return evaluated(oracle, "".join(lines))
