#!/usr/bin/env python3
"""Writes crates/test_field/src/law_vectors.rt: what both sides of each law of the desk come to, made by Python's integers alone.

    python3 tools/law_vectors.py > crates/test_field/src/law_vectors.rt && rt fmt

Written from request (viii) of document 02: each sentence is worked out on whole numbers, which commute, regroup and distribute, and the
element is taken once, at the end. A quotient of a product is the other factor; nothing is inverted here.
"""
import random

P = 2147483647
HALF = (P - 1) // 2
LOW, HIGH = -(2**63), 2**63 - 1
EDGES = [0, 1, -1, HALF, -HALF, LOW, HIGH, P, -P]
EACH = 18


def element(x):
    r = x % P
    return r - P if r > HALF else r


def zero(x):
    return x % P == 0


def fits(x):
    return LOW <= x <= HIGH


# The laws in the order of `Law`, crates/test_field/src/laws.rt: how many numbers each takes, and its value; None where there is no value.
LAWS = [
    ("sums commute", 2, lambda a, b, c: element(a + b)),
    ("products commute", 2, lambda a, b, c: element(a * b)),
    ("sums regroup", 3, lambda a, b, c: element(a + b + c)),
    ("products regroup", 3, lambda a, b, c: element(a * b * c)),
    ("products distribute", 3, lambda a, b, c: element(a * (b + c))),
    ("on the right", 3, lambda a, b, c: element((a + b) * c)),
    ("an opposite is an element", 1, lambda a, b, c: element(-a)),
    ("with its opposite, 0", 1, lambda a, b, c: 0),
    ("no other is: 1 where b is a's opposite", 2, lambda a, b, c: int(zero(a + b))),
    ("a difference is a sum", 2, lambda a, b, c: element(a - b)),
    ("a * b / b", 2, lambda a, b, c: None if zero(b) else element(a)),
    ("a * b / a", 2, lambda a, b, c: None if zero(a) else element(b)),
    ("a * b | b", 2, lambda a, b, c: 0 if zero(b) else element(a)),
    ("a * b | a", 2, lambda a, b, c: 0 if zero(a) else element(b)),
    ("a * b / b of an element a", 2, lambda a, b, c: None if zero(b) else element(a)),
    ("a * b | b of an element a", 2, lambda a, b, c: 0 if zero(b) else element(a)),
    ("a / 0", 2, lambda a, b, c: None),
    ("a | 0", 2, lambda a, b, c: 0 if zero(a) else None),
    ("0 | 0", 2, lambda a, b, c: 0),
]
NO_OTHER_IS, CANONICAL_SUM, CANONICAL_PRODUCT = 8, 19, 20
NAMES = ["SumsCommute", "ProductsCommute", "SumsRegroup", "ProductsRegroup", "ProductsDistribute", "ProductsDistributeRight",
         "OppositeElement", "OppositeSum", "OppositeOnly", "DifferenceSum", "DivideBySecond", "DivideByFirst", "DivideZBySecond",
         "DivideZByFirst", "DivideElement", "DivideZElement", "DivideByZero", "DivideZByZero", "DivideZZeros", "CanonicalSum",
         "CanonicalProduct"]


def some(rng):
    kind = rng.randrange(4)
    if kind == 0:
        return rng.choice(EDGES)
    if kind == 1:
        return rng.randint(-HALF, HALF)
    if kind == 2:
        return P * rng.randint(-5, 5) + rng.randint(-2, 2)
    return rng.randint(LOW, HIGH)


def laws(rng):
    for number, (_, operands, value) in enumerate(LAWS):
        for turn in range(EACH):
            a, b, c = (some(rng) if k < operands else 0 for k in range(3))
            if number == NO_OTHER_IS and turn % 2 == 0:
                b = P * rng.randint(-5, 5) - element(a)
            yield number, a, b, c, value(a, b, c)


# The third number is the sum or the product, where that is a signed 64-bit number.
def canonical(rng):
    pairs = [(a, b) for a in EDGES for b in EDGES]
    pairs += [(HIGH - k, k) for k in (2, P, 2**62)] + [(LOW + k, -k) for k in (2, P, 2**62)]
    pairs += [(2**32, 2**31 - 1), (-(2**32), 2**31), (3037000499, 3037000499), (LOW // 2, 2), (HIGH // 7, 7), (LOW, 1)]
    for _ in range(EACH):
        pairs.append((rng.randint(LOW // 2, HIGH // 2), rng.randint(LOW // 2, HIGH // 2)))
        pairs.append((rng.randint(-(2**31), 2**31), rng.randint(-(2**31), 2**31)))
    for a, b in pairs:
        if fits(a + b):
            yield CANONICAL_SUM, a, b, a + b, element(a + b)
        if fits(a * b):
            yield CANONICAL_PRODUCT, a, b, a * b, element(a * b)


random_numbers = random.Random(20238)
rows = list(laws(random_numbers)) + list(canonical(random_numbers))
print("// Values of both sides of the desk's laws, written by tools/law_vectors.py. Of the last two laws c is the sum or the product.")
print("use crate::laws::{Law, LawVector};\n")
print(f"pub static LAW_VECTORS: [LawVector; {len(rows)}] = [")
for law, a, b, c, v in rows:
    value = "None" if v is None else f"Some({v})"
    print(f"    LawVector {{ law: Law::{NAMES[law]}, a: {a}, b: {b}, c: {c}, value: {value} }},")
print("];")
