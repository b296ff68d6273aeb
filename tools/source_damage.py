#!/usr/bin/env python3
"""Writes crates/test_source/stdin: damaged source records with their answers, for the program test_source.

    python3 tools/source_damage.py [ORACLE] > crates/test_source/stdin

The answers are those of the checker below, written from document 01 and not from the port's code. With ORACLE, a program as
tools/number_cases.py says, each answer is also compared with `ORACLE numbers`. Counts go to standard error. Seeds are fixed.

A case is a base record with up to two words written anew and a length, so that it takes 24 bytes: crates/test_source/src/main.rt
says how both are written.
"""
import collections
import itertools
import random
import struct
import sys

from number_cases import (
    APPLY, AS, CONS, CONSTANT, FUNCTION, INFIX, LET, LINK, MATCH, NEGATE, NIL, NONE, P_CONS, P_CONSTANT, P_NIL, P_PRODUCT, P_UNIT,
    P_VARIABLE, PRODUCT, REFUSED, SEQUENCE, UNIT, VARIABLE, Record, answers,
)

BASE, NO_WORD, SPARE = 4294967295, 4294967295, b"ABCDEFGH"
ADD, EQUAL = 3, 5

# ---- the checker: document 01, "Source record" and "Numbers by place of the check"

LIMITS = (512, 64, 512, 512, 2048)
# The words a, b, c of each kind. 0 unused, e expression, p pattern, v name, o operator, n any number, and a chain of links:
# F of a function, M of a match, S of a sequence. A link's words are judged at its owner.
EXPRESSIONS = {0: "000", 1: "000", 2: "ee0", 3: "ee0", 4: "eeo", 5: "e00", 6: "ee0", 7: "nn0", 8: "v00", 9: "Fe0", 11: "pee", 12: "eM0", 13: "S00"}
PATTERNS = {16: "000", 17: "000", 18: "pv0", 19: "pp0", 20: "pp0", 21: "v00", 22: "nn0"}
# item and arm result of a link, by its owner
LINKS = {"F": "p0", "M": "pe", "S": "e0"}


class Five(Exception):
    pass


class Nodes:
    """Judges nodes and counts how often each is used."""

    def __init__(self, nodes, names):
        self.nodes, self.names, self.used = nodes, names, collections.Counter()

    def child(self, above, x, kinds):
        if not (x < above and self.nodes[x][0] in kinds):
            raise Five
        self.used[x] += 1

    def chain(self, above, x, owner):
        """The first link is required, and each stands before who names it."""
        while True:
            self.child(above, x, (14,))
            _, item, after, result = self.nodes[x]
            self.word(x, item, LINKS[owner][0])
            self.word(x, result, LINKS[owner][1])
            if after == 4294967295:
                return
            above, x = x, after

    def word(self, above, x, asked):
        if asked in "FMS":
            self.chain(above, x, asked)
        elif asked == "e":
            self.child(above, x, EXPRESSIONS)
        elif asked == "p":
            self.child(above, x, PATTERNS)
        elif {"0": x != 0, "v": x >= self.names, "o": x > 8, "n": False}[asked]:
            raise Five

    def judge(self):
        for k, (kind, *abc) in enumerate(self.nodes):
            if kind == 14:
                continue
            asked = EXPRESSIONS.get(kind) or PATTERNS.get(kind)
            if asked is None:
                raise Five
            for x, a in zip(abc, asked):
                self.word(k, x, a)


def next_id(nodes, texts, publics, definitions, expressions):
    """Ids: nine of the intrinsics, one for each binder, one for each name that is public or used where nothing binds it."""
    free = set()

    def bound(k):
        kind, a, b, _ = nodes[k]
        return {18: lambda: bound(a) | {b}, 19: lambda: bound(a) | bound(b), 20: lambda: bound(a) | bound(b), 21: lambda: {a}}.get(kind, set)()

    def links(l):
        while l != 4294967295:
            yield nodes[l][1], nodes[l][3]
            l = nodes[l][2]

    def walk(k, scope):
        kind, a, b, c = nodes[k]
        if kind == 8 and a not in scope:
            free.add(a)
        elif kind in (2, 3, 4, 6):
            walk(a, scope)
            walk(b, scope)
        elif kind == 5:
            walk(a, scope)
        elif kind == 9:
            walk(b, scope.union(*(bound(p) for p, _ in links(a))))
        elif kind == 11:
            walk(b, scope)
            walk(c, scope | bound(a))
        elif kind == 12:
            walk(a, scope)
            for p, e in links(b):
                walk(e, scope | bound(p))
        elif kind == 13:
            for e, _ in links(a):
                walk(e, scope)

    free.update(publics)
    top = frozenset()
    for p, v in definitions:
        walk(v, top)
        top |= bound(p)
    for e in expressions:
        walk(e, top)
    binders = sum(kind in (18, 21) for kind, *_ in nodes)
    return 9 + binders + sum(texts[x] not in (b"fresh", b"iter", b"fold") for x in free)


def answer(record):
    """The next id, or REFUSED and the first of the numbers 1 to 6."""
    if len(record) < 20:
        return REFUSED + 1
    counts = struct.unpack_from("<5I", record)
    if any(c > limit for c, limit in zip(counts, LIMITS)):
        return REFUSED + 2
    names, publics, definitions, expressions, nodes = counts
    sizes = (2 * names, publics, 2 * definitions, expressions, 4 * nodes)
    text = record[20 + 4 * sum(sizes) :]
    if len(record) < 20 + 4 * sum(sizes) or (names == 0 and text):
        return REFUSED + 1
    lists, at = [], 20
    for size in sizes:
        lists.append(struct.unpack_from("<%dI" % size, record, at))
        at += 4 * size
    offsets, lengths = lists[0][::2], lists[0][1::2]
    starts = [sum(lengths[:k]) for k in range(names + 1)]
    in_order = list(offsets) == starts[:-1] and starts[-1] == len(text)
    if not (in_order and all(1 <= n <= 64 for n in lengths) and all(33 <= c <= 126 for c in text)):
        return REFUSED + 3
    texts = [text[o : o + n] for o, n in zip(offsets, lengths)]
    if len(set(texts)) < names:
        return REFUSED + 4
    rows = list(zip(*[iter(lists[4])] * 4))
    pairs = list(zip(*[iter(lists[2])] * 2))
    judged = Nodes(rows, names)
    try:
        judged.judge()
        for x in lists[1]:
            judged.word(nodes, x, "v")
        for p, v in pairs:
            judged.word(nodes, p, "p")
            judged.word(nodes, v, "e")
        for x in lists[3]:
            judged.word(nodes, x, "e")
    except Five:
        return REFUSED + 5
    if any(judged.used[k] != 1 for k in range(nodes)):
        return REFUSED + 6
    return next_id(rows, texts, lists[1], pairs, lists[3])


# ---- cases

class Cases:
    """The cases of one base after another, each once, with their answers."""

    def __init__(self):
        self.out, self.numbers, self.records = [], collections.Counter(), []

    def set_base(self, record):
        """A base: the record, with spare bytes behind it."""
        self.base, self.size, self.seen = record + SPARE, len(record), set()
        self.out.append(struct.pack("<6I", BASE, len(self.base), 0, 0, 0, 0) + self.base)

    def damaged(self, edits, size):
        """The record with words written anew, cut or grown to a size. An edit may reach beyond it."""
        b = bytearray(self.base + bytes(8))
        for i, w in edits:
            if 4 * i + 4 <= len(b):
                struct.pack_into("<I", b, 4 * i, w)
        return bytes(b[:size])

    def number(self, edits=(), size=None):
        return answer(self.damaged(edits, self.size if size is None else size))

    def add(self, edits=(), size=None):
        size = self.size if size is None else size
        assert size <= len(self.base) and len(edits) <= 2
        record = self.damaged(edits, size)
        if record in self.seen:
            return
        self.seen.add(record)
        got = answer(record)
        self.numbers[max(got - REFUSED, 0)] += 1
        self.records.append((record, got))
        edits = list(edits) + [(NO_WORD, 0)] * (2 - len(edits))
        self.out.append(struct.pack("<6I", size, got, *edits[0], *edits[1]))

    def whole(self, record):
        """A record as it is."""
        self.set_base(record)
        self.add()

    def words(self):
        return struct.unpack("<%dI" % ((self.size + 3) // 4), self.base[: (self.size + 3) // 4 * 4])

    def header(self):
        return struct.unpack_from("<5I", self.base)

    def text_word(self):
        names, publics, definitions, expressions, nodes = self.header()
        return 5 + 2 * names + publics + 2 * definitions + expressions + 4 * nodes


def number_of(got):
    return max(got - REFUSED, 0)


def with_byte(cases, at, byte):
    """The edit of one byte."""
    i = at // 4
    b = bytearray(cases.base[4 * i : 4 * i + 4].ljust(4, b"\0"))
    b[at % 4] = byte
    return i, struct.unpack("<I", b)[0]


BYTES = (0, 10, 31, 32, 33, 34, 125, 126, 127, 128, 255)


def text_bytes(cases):
    return range(4 * cases.text_word(), cases.size)


def boundaries(cases, i, old):
    """Values that mean something in word i, whatever that is."""
    header = cases.header()
    values = {0, 1, 2, old - 1, old + 1, 2 * old, 2**16, 2**28, 2**29, 2**30, 2**31 - 1, 2**31, 2**31 + 1, 2**32 - 2, 2**32 - 1}
    values |= {8, 9, 10, 13, 14, 15, 16, 22, 23, 24, 63, 64, 65, 511, 512, 513, 2047, 2048, 2049}
    for n in header:
        values |= {n - 1, n, n + 1}
    first = cases.text_word() - 4 * header[4]
    if first <= i < cases.text_word():
        k, place = divmod(i - first, 4)
        values |= {k - 1, k, k + 1} | (set(range(26)) if place == 0 else set(range(header[4])))
    return sorted(v % 2**32 for v in values)


def each_word(cases):
    """Boundary values in every word, and bytes in the text."""
    for i, old in enumerate(cases.words()[: cases.text_word()]):
        for v in boundaries(cases, i, old):
            cases.add([(i, v)])
    for at in text_bytes(cases):
        for byte in BYTES:
            cases.add([with_byte(cases, at, byte)])


def each_length(cases):
    """Cut at every length, and grown."""
    for n in range(cases.size + len(SPARE) + 1):
        cases.add(size=n)


def faults(cases):
    """For every word, one value for each number that it alone can bring about; in the text also by single bytes."""
    found = []
    for i, old in enumerate(cases.words()[: cases.text_word()]):
        by = {}
        for v in boundaries(cases, i, old):
            by.setdefault(number_of(cases.number([(i, v)])), (i, v))
        found += [(n, 4 * i, e) for n, e in by.items() if n]
    for at in text_bytes(cases):
        by = {}
        for byte in BYTES + tuple(cases.base[b] for b in text_bytes(cases)):
            e = with_byte(cases, at, byte)
            by.setdefault(number_of(cases.number([e])), e)
        found += [(n, at, e) for n, e in by.items() if n]
    return found


def each_pair(cases, seen):
    """Two faults at once in every pair of words, and each fault with a cut at every word or some bytes more."""
    found = faults(cases)
    for (m, at, e), (n, later, f) in itertools.combinations(found, 2):
        if e[0] != f[0]:
            cases.add([e, f])
            seen[m, n] += 1
    for size in sorted(set(range(0, cases.size, 4)) | set(range(cases.size - 3, cases.size + 5))):
        n = number_of(cases.number(size=size))
        for m, at, e in found:
            if n and at < size:
                cases.add([e], size)
                seen[m, n] += 1


# ---- records

def lets():
    r = Record()
    r.publics += ["ab"]
    r.define(r.bind("ac"), r.node(INFIX, r.use("ab"), r.node(CONSTANT, 5), ADD))
    value = r.node(NEGATE, r.use("ab"))
    body = r.node(INFIX, r.use("x"), r.use("ac"), EQUAL)
    r.expressions += [r.node(LET, r.bind("x"), value, body)]
    return r


def functions():
    r = Record()
    inner = r.node(P_PRODUCT, r.bind("q"), r.node(P_CONSTANT, 2**32 - 7))
    p = r.node(AS, inner, r.name("p"))
    f = r.node(FUNCTION, r.chain([(p, 0), (r.bind("q"), 0)]), r.node(APPLY, r.use("p"), r.use("q")))
    r.expressions += [r.node(APPLY, f, r.node(CONSTANT, 1)), r.node(PRODUCT, r.node(UNIT), r.node(NIL))]
    return r


def matches():
    r = Record()
    value = r.use("z")
    none = (r.node(P_NIL), r.node(UNIT))
    some = r.node(P_CONS, r.bind("h"), r.node(P_UNIT))
    items = r.node(SEQUENCE, r.chain([(r.node(CONSTANT, 1), 0), (r.use("h"), 0)]))
    r.define(r.bind("fold"), r.node(MATCH, value, r.chain([none, (some, items)])))
    r.publics += ["z", "z"]
    return r


def nameless():
    """No name, so that the file ends with its lists."""
    r = Record()
    r.define(r.node(P_UNIT), r.node(CONS, r.node(CONSTANT, 2**31), r.node(NIL)))
    r.expressions += [r.node(SEQUENCE, r.chain([(r.node(UNIT), 0)]))]
    return r


def grown(seed, size):
    """A random record: expressions and patterns grown from the leaves."""
    rng = random.Random(seed)
    r = Record()
    names = ["x", "y", "xy", "yx", "fresh", "iter", "t" * 64, "u" * 63 + "!"]

    def pattern(depth):
        kind = rng.choice([P_UNIT, P_NIL, P_CONSTANT, P_VARIABLE, P_VARIABLE] + ([AS, P_PRODUCT, P_CONS] if depth else []))
        if kind == P_CONSTANT:
            return r.node(kind, rng.getrandbits(32), rng.getrandbits(32))
        if kind == P_VARIABLE:
            return r.bind(rng.choice(names))
        if kind == AS:
            return r.node(kind, pattern(depth - 1), r.name(rng.choice(names)))
        if kind in (P_PRODUCT, P_CONS):
            return r.node(kind, pattern(depth - 1), pattern(depth - 1))
        return r.node(kind)

    def expression(depth):
        e = lambda: expression(depth - 1)
        inner = [PRODUCT, CONS, INFIX, NEGATE, APPLY, FUNCTION, LET, MATCH, SEQUENCE] * 2
        kind = rng.choice([UNIT, NIL, CONSTANT, VARIABLE, VARIABLE] + (inner if depth else []))
        if kind == CONSTANT:
            return r.node(kind, rng.getrandbits(32), rng.getrandbits(32))
        if kind == VARIABLE:
            return r.use(rng.choice(names))
        if kind in (PRODUCT, CONS, APPLY):
            return r.node(kind, e(), e())
        if kind == INFIX:
            return r.node(kind, e(), e(), rng.randrange(9))
        if kind == NEGATE:
            return r.node(kind, e())
        if kind == FUNCTION:
            return r.node(kind, r.chain([(pattern(1), 0) for _ in range(rng.randint(1, 3))]), e())
        if kind == LET:
            return r.node(kind, pattern(2), e(), e())
        if kind == MATCH:
            return r.node(kind, e(), r.chain([(pattern(2), e()) for _ in range(rng.randint(1, 3))]))
        if kind == SEQUENCE:
            return r.node(kind, r.chain([(e(), 0) for _ in range(rng.randint(1, 3))]))
        return r.node(kind)

    while len(r.nodes) < size:
        if rng.random() < 0.4:
            r.define(pattern(2), expression(3))
        else:
            r.expressions.append(expression(3))
    r.publics += [rng.choice(r.names) for _ in range(rng.randrange(4))]
    return r


def record_of(nodes, definitions=(), expressions=(), publics=(), names=("a", "b")):
    """A record by its lists, good or not."""
    r = Record()
    for n in names:
        r.name(n)
    r.nodes += [tuple(n) + (0,) * (4 - len(n)) for n in nodes]
    r.definitions += definitions
    r.expressions += expressions
    r.publics += publics
    return r.bytes()


def links():
    """Links with two owners, reached by none, as expressions, in a circle, with the wrong items, without a first."""
    one, unit, pat = (CONSTANT, 1), (UNIT,), (P_VARIABLE, 0)
    yield record_of([one, (LINK, 0, NONE), (SEQUENCE, 1), (SEQUENCE, 1)], expressions=[2, 3])  # two owners
    yield record_of([one, (LINK, 0, NONE), unit, (LINK, 2, 1), (SEQUENCE, 3), (SEQUENCE, 1)], expressions=[4, 5])  # two chains with one end
    yield record_of([one, (LINK, 0, NONE), unit, (LINK, 2, 1), unit, (LINK, 4, 1), (SEQUENCE, 3), (SEQUENCE, 5)], expressions=[6, 7])
    yield record_of([pat, (LINK, 0, NONE), unit, (FUNCTION, 1, 2), unit, (FUNCTION, 1, 4)], expressions=[3, 5])
    yield record_of([pat, (LINK, 0, NONE), unit, (FUNCTION, 1, 2), (SEQUENCE, 1)], expressions=[3, 4])  # the second wants expressions
    yield record_of([pat, unit, (LINK, 0, NONE, 1), unit, (MATCH, 3, 2), unit, (FUNCTION, 2, 5)], expressions=[4, 6])  # an arm as a parameter
    yield record_of([pat, unit, (LINK, 0, NONE, 1), unit, (MATCH, 3, 2), unit, (MATCH, 5, 2)], expressions=[4, 6])
    for words in ((0, NONE, 0), (1, NONE, 0), (NONE, NONE, NONE), (0, 0, 0), (7, 1, 2**31)):  # reached by none, whatever its words
        yield record_of([one, (LINK, *words)], expressions=[0])
        yield record_of([one, (LINK, *words)])
        yield record_of([(LINK, *words)])
    yield record_of([one, (LINK, 0, NONE), unit, (LINK, 2, 1)], expressions=[])  # a chain by itself
    chain = [one, (LINK, 0, NONE)]
    yield record_of(chain, expressions=[1])  # a link as an expression
    yield record_of(chain + [pat], definitions=[(2, 1)])
    yield record_of(chain + [unit], definitions=[(1, 2)])  # and as a pattern
    for kind in (PRODUCT, CONS, INFIX, APPLY):
        yield record_of(chain + [unit, (kind, 1, 2)], expressions=[3])
        yield record_of(chain + [unit, (kind, 2, 1)], expressions=[3])
    yield record_of(chain + [(NEGATE, 1)], expressions=[2])
    yield record_of(chain + [unit, pat, (LET, 3, 1, 2)], expressions=[4])
    yield record_of(chain + [unit, pat, (LET, 3, 2, 1)], expressions=[4])
    yield record_of(chain + [unit, unit, (LET, 1, 2, 3)], expressions=[4])
    yield record_of(chain + [(AS, 1, 0)], definitions=[(2, 0)])
    yield record_of(chain + [(LINK, 1, NONE), (SEQUENCE, 2)], expressions=[3])  # and as an item
    yield record_of([pat, (LINK, 0, NONE), (FUNCTION, 1, 1)], expressions=[2])
    for other in (one, pat, unit, (P_UNIT,)):  # no link as the first
        yield record_of([one, other, (SEQUENCE, 1)], expressions=[2])
        yield record_of([one, other, (FUNCTION, 1, 0)], expressions=[2])
        yield record_of([one, other, (MATCH, 0, 1)], expressions=[2])
    for first in (NONE, 1, 2, 3, 2**31):  # itself, later, none at all
        yield record_of([one, (SEQUENCE, first)], expressions=[1])
        yield record_of([one, (FUNCTION, first, 0)], expressions=[1])
        yield record_of([one, (MATCH, 0, first)], expressions=[1])
    for after in (0, 1, 2, 3, NONE - 1, 2**31):  # a circle, or a link that stands later
        yield record_of([one, (LINK, 0, after), (SEQUENCE, 1)], expressions=[2])
        yield record_of([one, unit, (LINK, 0, after), (LINK, 1, 2), (SEQUENCE, 3)], expressions=[4])
    for item in (0, 1, 2, 3, 4, NONE):  # items of each sort, before the link and not
        for result in (0, 1, 2, 3, 4, NONE):
            nodes = [one, pat, (LINK, item, NONE, result)]
            yield record_of(nodes + [(SEQUENCE, 2)], definitions=[(1, 0)], expressions=[3])
            yield record_of(nodes + [unit, (FUNCTION, 2, 3)], expressions=[4])
            yield record_of(nodes + [unit, (MATCH, 3, 2)], expressions=[4])
    yield record_of([pat, one, (LINK, 0, NONE, 1), unit, (MATCH, 3, 2)], expressions=[4])
    yield record_of([one, pat, (LINK, 1, NONE, 0), unit, (MATCH, 3, 2)], expressions=[4])  # the arm result is node 0
    yield record_of([one, one], expressions=[0, 0])  # uses by lists count too
    yield record_of([one, one], expressions=[0])
    yield record_of([pat, one, pat, one], definitions=[(0, 1), (0, 3)])
    yield record_of([pat, one], definitions=[(0, 1)], expressions=[1])
    yield record_of([one, one, (PRODUCT, 0, 0)], expressions=[2])
    yield record_of([one, (NEGATE, 0), (NEGATE, 0)], expressions=[1, 2])


def kinds():
    """Every kind to 31 and some large ones, with each sort of child that it could have."""
    for kind in list(range(32)) + [64, 2**31, 2**32 - 1]:
        leaf = [(CONSTANT, 7), (P_VARIABLE, 1), (P_UNIT,), (LINK, 1, NONE, 0), (LINK, 0, NONE)]
        for a, b, c in itertools.product((0, 1, 4), (0, 2, 3), (0, 8, 9)):
            yield record_of(leaf + [(kind, a, b, c)], expressions=[5])
            yield record_of(leaf + [(kind, a, b, c)], definitions=[(5, 0)])


def named(texts, pairs=None, text=None, count=None):
    """A record of names alone."""
    b = [t if isinstance(t, bytes) else t.encode() for t in texts]
    if pairs is None:
        starts = [sum(map(len, b[:k])) for k in range(len(b))]
        pairs = [(s, len(t)) for s, t in zip(starts, b)]
    flat = [w % 2**32 for p in pairs for w in p]
    head = [len(pairs) if count is None else count, 0, 0, 0, 0]
    return struct.pack("<%dI" % (5 + len(flat)), *head, *flat) + (b"".join(b) if text is None else text)


def names():
    """Bytes, lengths, overlaps, gaps, order, and equal names."""
    for byte in BYTES:
        for t in (bytes([byte]), b"a" + bytes([byte]), bytes([byte]) + b"a", b"a" * 63 + bytes([byte]), b"b" * 31 + bytes([byte]) + b"b" * 32):
            yield named([t])
            yield named(["x", t, "y"])
    for n in (0, 1, 2, 63, 64, 65, 66, 128, 256):
        yield named(["n" * n])
        yield named(["n" * n, "m"])
        yield named(["m", "n" * n])
        yield named(["l", "n" * n, "m"])
    text = b"abcdefgh"
    for pairs in (
        [(0, 8)], [(0, 7)], [(0, 9)], [(1, 7)], [(0, 64)],
        [(0, 4), (4, 4)], [(0, 4), (3, 5)], [(0, 5), (4, 4)], [(0, 4), (5, 3)], [(0, 3), (4, 4)], [(1, 3), (4, 4)], [(4, 4), (0, 4)],
        [(0, 4), (4, 3)], [(0, 4), (4, 5)], [(0, 4), (4, 64)], [(0, 8), (8, 0)], [(0, 0), (0, 8)],
        [(0, 8), (0, 8)], [(0, 4), (0, 4)], [(4, 4), (4, 4)],
        [(0, 4), (4, 2**32 - 1)], [(0, 2**32 - 4), (-4, 8)], [(-4, 8), (4, 4)], [(0, 4), (2**31, 4)],
        [(0, 2), (2, 2), (4, 2), (6, 2)], [(0, 2), (4, 2), (2, 2), (6, 2)], [(0, 2), (2, 2), (4, 4), (4, 4)],
    ):
        yield named([], pairs, text)
        yield named([], pairs, text + b"i")
        yield named([], pairs, text[:-1])
    yield named([], [], b"")
    yield named([], [], b"a")
    yield named([], [(0, 1)], b"a", count=0)  # a pair that no count knows is text without names
    yield named([], [(0, 1)], b"")
    # equal names: side by side, far apart, three of them; prefixes are not equal; other faults before and after
    for texts in (
        "a a", "a b a", "a b b", "a a b", "a a a", "ab ab", "ab abc", "abc ab", "ab ba", "a aa aaa", "aa a aaa a",
        "fresh fresh", "fresh iter fold", "a A", "! ~", "! !", "~ ~",
    ):
        yield named(texts.split())
    yield named(["a" * 64, "b", "a" * 64])
    yield named(["a" * 64, "b", "a" * 63 + "b"])
    yield named(["a" * 64, "b", "b" + "a" * 63])
    for texts in (["a", "a", " "], [" ", "a", "a"], ["a", "\x7f", "a"], ["a", "a", "\x7f"]):  # 3 before 4
        yield named(texts)
    yield named(["a", "a", "n" * 65])
    yield named([], [(0, 1), (1, 1), (3, 1)], b"aabc")
    yield named([], [(0, 1), (1, 1)], b"aab")
    for n in (2, 3, 64, 511, 512):  # one pair among many
        texts = ["%03x" % k for k in range(n)]
        yield named(texts)
        for i, j in ((0, 1), (0, n - 1), (n - 2, n - 1), (n // 2 - 1, n // 2)):
            if i < j:
                yield named(texts[:j] + [texts[i]] + texts[j + 1 :])
    # names that a sum of their bytes, weighted by 1 or by powers of 31, does not tell apart
    for alike in (["".join(t) for t in itertools.permutations("abcd")], ["".join(t) for t in itertools.product(("Ax", "BY"), repeat=9)]):
        yield named(alike)
        for k in (0, len(alike) // 2, len(alike) - 2):
            yield named(alike[:-1] + alike[k : k + 1])
    long = [("%03x" % k) * 21 + "!" for k in range(512)]
    yield named(long)
    yield named(long[:511] + long[:1])
    yield named(long[:511] + long[510:511])
    yield named([t[::-1] for t in long])


def counted(names=0, publics=0, definitions=0, expressions=0, nodes=0, width=3):
    """A record with exactly these counts, good but for their limits. The first expression takes the nodes that are left over."""
    r = Record()
    for k in range(names):
        r.name(("%03x" % k).ljust(width, "!"))
    r.publics += [r.names[k % names] for k in range(publics)]
    for k in range(definitions):
        r.define(r.node(P_VARIABLE, k % names) if names else r.node(P_UNIT), r.node(CONSTANT, k))
    for k in range(expressions):
        e = r.node(VARIABLE, k % names) if names else r.node(UNIT)
        if k == 0:
            while len(r.nodes) < nodes - expressions + 1:
                e = r.node(NEGATE, e)
        r.expressions.append(e)
    assert len(r.nodes) == nodes
    return r.bytes()


def limits(cases):
    """Counts at their limits and one over, alone and all at once; and counts alone, with no lists behind them."""
    full = dict(names=512, publics=64, definitions=512, expressions=512, nodes=2048)
    at = [
        dict(names=512), dict(names=1, publics=64), dict(definitions=512, nodes=1024), dict(expressions=512, nodes=512), dict(expressions=1, nodes=2048),
        full, dict(full, width=64), {what: n - 1 for what, n in full.items()},
    ]
    over = [
        dict(names=513), dict(names=1, publics=65), dict(definitions=513, nodes=1026), dict(expressions=513, nodes=513), dict(expressions=1, nodes=2049),
        {what: n + 1 for what, n in full.items()},
    ]
    for counts in at:
        cases.whole(counted(**counts))
        for n in range(cases.size - 3, cases.size + 5):
            cases.add(size=n)
        for i in range(5):
            for v in (LIMITS[i] - 1, LIMITS[i], LIMITS[i] + 1, 2**16, 2**31, 2**32 - 1):
                cases.add([(i, v)])
                for j in range(i + 1, 5):
                    cases.add([(i, v), (j, LIMITS[j] + 1)])
        words = struct.unpack_from("<%dI" % cases.text_word(), cases.base)
        for i in (5, 6, 5 + 2 * 511, cases.text_word() - 4, cases.text_word() - 3):  # the last name and the last node too
            if i < len(words):
                for v in (0, words[i] + 1, 2**32 - 1):
                    cases.add([(i, v)])
    for counts in over:
        cases.whole(counted(**counts))
    cases.set_base(struct.pack("<5I", 0, 0, 0, 0, 0))
    for n in range(29):
        cases.add(size=n)
    for i, j in itertools.combinations(range(5), 2):
        for v, w in itertools.product((0, 1, LIMITS[i], LIMITS[i] + 1, 2**30, 2**32 - 1), (0, 1, LIMITS[j], LIMITS[j] + 1, 2**30, 2**32 - 1)):
            for size in (16, 19, 20, 21, 24, 28):
                cases.add([(i, v), (j, w)], size)


def at_random(cases, seed, count):
    """Two edits and a length at random."""
    rng = random.Random(seed)
    words = cases.words()
    for _ in range(count):
        edits = []
        for i in rng.sample(range(len(words)), 2):
            edits.append((i, rng.choice(boundaries(cases, i, words[i]) if i < cases.text_word() else [rng.getrandbits(32)])))
        cases.add(edits[: rng.randint(1, 2)], cases.size if rng.random() < 0.8 else rng.randrange(len(cases.base)))


def main():
    sys.setrecursionlimit(10000)  # trees of 2,048 nodes in a row
    cases, pairs = Cases(), collections.Counter()
    for made in (lets, functions, matches, nameless):
        cases.set_base(made().bytes())
        cases.add()
        assert cases.number() < REFUSED
        each_word(cases)
        each_length(cases)
        each_pair(cases, pairs)
    for seed in range(12):
        cases.set_base(grown(seed, 40).bytes())
        cases.add()
        assert cases.number() < REFUSED
        if seed < 3:
            each_word(cases)
            each_length(cases)
        at_random(cases, seed, 1000)
    for record in itertools.chain(links(), kinds(), names()):
        cases.whole(record)
    limits(cases)
    print("%d cases, by number: %s" % (sum(cases.numbers.values()), dict(sorted(cases.numbers.items()))), file=sys.stderr)
    print("two faults at once, the first one's number by the second's:", file=sys.stderr)
    for m in range(1, 7):
        print(m, *("%6d" % pairs[m, n] for n in range(1, 7)), file=sys.stderr)
    assert set(cases.numbers) == set(range(7))
    if len(sys.argv) > 1:
        got = answers(sys.argv[1], [r for r, _ in cases.records if r])
        want = [w for r, w in cases.records if r]
        differ = [(g, w) for g, w in zip(got, want) if g.split(" ")[1] != str(w if w < REFUSED else w - REFUSED) or (g[0] == "r") != (w > REFUSED)]
        assert len(got) == len(want) and not differ, differ[:5]
        print("the oracle agrees on all that are not empty", file=sys.stderr)
    sys.stdout.buffer.write(b"".join(cases.out))


if __name__ == "__main__":
    main()
