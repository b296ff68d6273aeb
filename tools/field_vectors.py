#!/usr/bin/env python3
"""Writes crates/test_field/src/vectors.rt: answers of the field, made by Python's integers alone.

    python3 tools/field_vectors.py > crates/test_field/src/vectors.rt && rt fmt

Inverses by pow(b, -1, p), rounded quotients by exact fractions, powers by pow(a, n, p). Counts of a power by the rule of document 02, on Python's integers; each is
compared with a run that raises a base by squares and counts the products.
"""
import itertools
import math
import random
from fractions import Fraction

P = 2147483647
HALF = (P - 1) // 2
LOW, HIGH = -(2**63), 2**63 - 1


def element(x):
    r = x % P
    return r - P if r > HALF else r


def inverse(x):
    return None if x % P == 0 else element(pow(x, -1, P))


def nearest(a, b):
    """Of the whole numbers around a / b the nearer one; of two as near, the one further from zero (document 02 (v))."""
    exact = Fraction(a, b)
    return min((math.floor(exact), math.ceil(exact)), key=lambda q: (abs(exact - q), -abs(q)))


def infix(op, a, b):
    a, b = element(a), element(b)
    if op == 0:
        return None if b == 0 else element(a * inverse(b))
    if op == 1:
        return (0 if a == 0 else None) if b == 0 else element(a * inverse(b))
    if op == 2:
        return element(a * b)
    if op == 3:
        return element(a + b)
    if op == 4:
        return element(a - b)
    if op == 5:
        return None
    if op == 6:
        if b >= 0:
            return element(pow(a, b, P))
        return None if a == 0 else element(pow(pow(a, -1, P), -b, P))
    if op == 7:
        return None if b == 0 else nearest(a, b)
    return None if b == 0 else a - b * nearest(a, b)


def count(n):
    """The position of the highest one bit, counted from 0, plus the number of one bits, less 1; 0 leaves none."""
    return n.bit_length() - 1 + bin(n).count("1") - 1 if n else 0


def products(n):
    """How many products raise a base to n: for each bit behind the highest a square, and a factor where it is 1. Exponents stand for the powers."""
    reached, made = 1, 0
    for bit in bin(n)[3:]:
        reached, made = 2 * reached, made + 1
        if bit == "1":
            reached, made = reached + 1, made + 1
    assert reached == n
    return made


EDGES = [0, 1, -1, 2, -2, 3, -3, 7, -7, 511, 512, 513, -512, -513, HALF, -HALF, HALF + 1, -HALF - 1, P, -P, P - 1, P + 1,
         1 - P, 2**31, -(2**31), LOW, LOW + 1, HIGH, HIGH - 1]
EXPONENTS = [0, 1, -1, 2, -2, 3, -3, 5, 64, 65, -64, -65, HALF, -HALF, HALF + 1, P - 1, P, 2**31, LOW, HIGH]
# dividends and divisors above 0: halves, just below and above a half, multiples, dividends below half of the divisor, the largest elements
ROUNDED = [(7, 2), (5, 3), (4, 3), (6, 4), (5, 2), (1, 2), (1, 3), (2, 3), (9, 6), (10, 6), (8, 6), (12, 8), (12, 4), (HALF, 2), (HALF - 1, 2), (HALF, 1),
           (HALF, HALF), (HALF - 1, HALF), (1, HALF), ((HALF + 1) // 2, HALF), (HALF // 2, HALF), (HALF // 2, HALF - 1), (HALF, HALF - 1),
           (HALF, 6), (HALF, 512)]
FIRST = range(1, 1001)
DRAW = random.Random(63)
DRAWN = [DRAW.randint(1, 2**DRAW.randint(11, 63)) for _ in range(200)]
COUNTS = [0] + [2**k + d for k in range(10, 64) for d in (-1, 0, 1)] + [2**64 - 2, 2**64 - 1] + DRAWN
assert all(count(n) == products(n) for n in [*FIRST, *COUNTS[1:]])


def vectors():
    rng = random.Random(20231)
    for a in EDGES:
        yield 9, a, 0, element(a)
        yield 10, a, 0, element(-a)
        yield 11, a, 0, inverse(a)
    small = [0, 1, -1, 2, -2, 7, -7, 512, 513, HALF, -HALF, HALF + 1, P, LOW, HIGH]
    for op in (0, 1, 2, 3, 4, 5, 7, 8):
        pairs = list(itertools.product(small, small))
        for a, b in rng.sample(pairs, 20):
            yield op, a, b, infix(op, a, b)
        for a in (0, 1, 7, LOW):
            for b in (0, P, -P):
                yield op, a, b, infix(op, a, b)
        for _ in range(8):
            a, b = rng.randint(LOW, HIGH), rng.randint(-3000, 3000)
            yield op, a, b, infix(op, a, b)
            a, b = rng.randint(LOW, HIGH), rng.randint(LOW, HIGH)
            yield op, a, b, infix(op, a, b)
    for a, b in ROUNDED:
        for op, s, t in itertools.product((7, 8), (1, -1), (1, -1)):
            yield op, s * a, t * b, infix(op, s * a, t * b)
    for a in (0, 1, -1, 2, -7, HALF, P, HIGH):
        for n in EXPONENTS:
            yield 6, a, n, infix(6, a, n)
    for b in range(1, 513, 17):
        yield 11, b, 0, inverse(b)
    for _ in range(20):
        b = rng.randint(513, P - 1)
        yield 11, b, 0, inverse(b)


# The operations in the order of their numbers above.
INFIX = ["Divide", "DivideZ", "Multiply", "Add", "Subtract", "Equal", "Exponentiate", "IntDivide", "Modulo"]
OPERATIONS = [f"Operation::Infix(InfixOp::{name})" for name in INFIX] + ["Operation::Canonical", "Operation::Negate", "Operation::Inverse"]


def option(v):
    return "None" if v is None else f"Some({v})"


rows = list(vectors())
print("// Answers of the field, written by tools/field_vectors.py.")
print("use crate::{Operation, PowerCount, Vector};")
print("use field::InfixOp;\n")
print(f"pub static VECTORS: [Vector; {len(rows)}] = [")
for op, a, b, v in rows:
    print(f"    Vector {{ operation: {OPERATIONS[op]}, a: {a}, b: {b}, answer: {option(v)} }},")
print("];\n")
print("// The counts of definitions of the exponents from 1 on.")
print(f"pub static FIRST_COUNTS: [u64; {len(FIRST)}] = [")
for n in FIRST:
    print(f"    {count(n)},")
print("];\n")
print("// More exponents with their counts.")
print(f"pub static POWER_COUNTS: [PowerCount; {len(COUNTS)}] = [")
for n in COUNTS:
    print(f"    PowerCount {{ exponent: {n}, count: {count(n)} }},")
print("];")
