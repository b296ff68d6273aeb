#!/usr/bin/env python3
"""Measures the stack that a program takes on the deepest records: docs/PERFORMANCE.md has what came out.

    python3 tools/evaluation_stack.py PROGRAM [WORD]

PROGRAM is test_eval, flatten or flatten_equalities. Each record is run alone, with the largest store, and the program's stack is limited to fewer and
fewer bytes (`ulimit -s`) until it no longer ends well; the records are the directed modules of oracle/model and the deep ones below, of these only such whose name
has WORD in it, if one is given. Printed are the kilobytes that suffice, the largest first.
"""
import functools
import os
import resource
import subprocess
import sys

from source_records import LAST_STORE, directed, group, model, model_answer, module_record
from trees import A, ADD, C, CO, D, EQ, EXP, F, I, L, MUL, N, PR, SUB, U, V, lst


def repeated(n, f, e):
    return functools.reduce(lambda x, _: f(x), range(n), e)


def iterated(counts, step, start):
    """Definitions that apply a step as often as the counts say, at most 127 times each."""
    return [D("s", step), D("t", start)] + [D("t", A(V("iter"), C(k), V("s"), V("t"))) for k in counts]


def negations():
    """A flat expression of about 16,000 negations: an application refreshes, captures and writes it."""
    neg = lambda e: ("neg", e)
    for k in (60, 126):
        yield "%d negations a step, in an equation" % k, ([], [D("s", F(["x"], repeated(k, neg, V("x"))))], [I(EQ, A(V("iter"), C(16000 // k), V("s"), V("y")), V("y"))])
    step = F(["x"], repeated(126, neg, V("x")))
    yield "negations, a definition", ([], [D("s", step), D("a", A(V("iter"), C(60), V("s"), V("y")))], [])
    for n in (100, 127):
        inner = F(["u"], A(V("iter"), C(n), F(["x"], ("neg", V("x"))), V("u")))
        yield "negations by iter in iter, %d" % n, ([], [], [I(EQ, A(V("iter"), C(n), inner, V("y")), V("y"))])


def sums():
    step = {"left": lambda e: I(ADD, e, V("y")), "right": lambda e: I(ADD, V("y"), e)}
    for name, f in step.items():
        inner = F(["u"], A(V("iter"), C(80), F(["x"], f(V("x"))), V("u")))
        yield "sums to the %s by iter in iter" % name, ([], [], [I(EQ, A(V("iter"), C(100), inner, V("y")), V("y"))])


def pairs():
    step = {"left": lambda e: PR(e, U), "right": lambda e: PR(U, e), "list": lambda e: CO(U, e), "left functions": lambda e: PR(e, F(["z"], V("y")))}
    for name, f in step.items():
        for n in (40, 90, 127):
            inner = F(["u"], A(V("iter"), C(n), F(["x"], f(V("x"))), V("u")))
            yield "pairs, %s, by iter in iter %d" % (name, n), ([], [], [A(V("iter"), C(n), inner, U)])
        yield "pairs, %s, bound" % name, ([], iterated([60] * 12, F(["x"], f(V("x"))), U), [])
        for n in (240, 480, 960):
            yield "pairs, %s, written out" % name + " %d" % n, ([], [D("g", F(["x"], repeated(240, f, V("x"))))] + [D("t", U)] + [D("t", A(V("g"), V("t")))] * (n // 240), [L("x", C(1), V("t")), I(EQ, V("t"), V("t"))])


def folds():
    for n in (60, 120, 240):
        l = lst(*[C(k) for k in range(n)])
        yield "fold of %d" % n, ([], [D("l", l), D("r", A(V("fold"), V("l"), F(["e", "a"], I(ADD, V("e"), V("a"))), V("y")))], [])
        yield "fold of %d, unbound" % n, ([], [D("l", l)], [A(V("fold"), V("l"), F(["e", "a"], I(ADD, V("e"), V("a"))), V("y"))])
    step = F(["f"], A(V("fold"), CO(V("f"), N)))
    for m in (5, 30):
        yield "fold nest %d" % m, ([], [D("f", F(["z"], V("z"))), D("st", step)] + [D("f", A(V("iter"), C(120), V("st"), V("f")))] * m, [A(V("f"), F(["e", "acc"], V("acc")), C(3))])


def levels():
    neg = lambda e: ("neg", e)
    yield "255 negations", ([], [D("a", repeated(255, neg, V("x")))], [])
    kinds = {
        "pair left": lambda e: PR(e, U), "pair right": lambda e: PR(U, e), "list": lambda e: CO(U, e), "let body": lambda e: L("x", U, e), "let value": lambda e: L("x", e, U),
        "sum left": lambda e: I(ADD, e, C(1)), "sum right": lambda e: I(MUL, V("y"), e), "power": lambda e: I(EXP, e, C(3)), "sequence first": lambda e: ("seq", [e, U]),
        "sequence last": lambda e: ("seq", [U, e]), "match body": lambda e: ("match", U, [(("pvar", "x"), e)]), "match value": lambda e: ("match", e, [(("pvar", "x"), U)]),
        "argument": lambda e: A(F(["x"], V("x")), e), "function body": lambda e: A(F(["x"], e), U), "applied": lambda e: A(A(F(["x"], e), U), U),
        "iter": lambda e: A(V("iter"), C(1), F(["x"], e), U), "fold": lambda e: A(V("fold"), CO(U, N), F(["x", "a"], e), U), "equation": lambda e: I(EQ, e, C(1)),
        "iter argument": lambda e: A(V("iter"), C(1), F(["x"], V("x")), e), "let body of a function": lambda e: A(L("x", U, F(["z"], e)), U), "subtraction": lambda e: I(SUB, C(1), e),
        "match doubled": lambda e: ("match", V("y"), [(("pvar", "x"), e)]), "fresh": lambda e: A(V("fresh"), e),
    }
    for name, f in kinds.items():
        for n in (20, 40, 60, 84, 100, 126, 127, 200, 254, 255):
            yield "%s, %d deep" % (name, n), ([], [], [repeated(n, f, V("y"))])


def recursions():
    """A function that calls itself as deep as 256 levels allow, in several forms."""
    w = lambda b: F(["q", "n"], b)
    again = A(V("q"), V("q"), I(SUB, V("n"), C(1)))
    forms = {
        "tail": again, "sum": I(ADD, V("n"), again), "pair": PR(V("n"), again), "let": L("r", again, V("r")), "sequence": ("seq", [I(EQ, V("n"), C(0)), again]),
        "match": ("match", again, [(("pvar", "r"), V("r"))]), "argument": A(F(["z"], V("z")), again), "iter": A(V("iter"), C(1), F(["z"], again), U), "fold": A(V("fold"), CO(U, N), F(["e", "z"], again), U),
        "let body": L("r", V("n"), again), "negation": ("neg", again), "equation": I(EQ, again, C(1)), "match in let": L("r", U, ("match", PR(V("n"), V("n")), [(("pprod", ("pvar", "a"), ("pvar", "b")), again)])),
    }
    for name, b in forms.items():
        body = ("match", V("n"), [(("pconst", 0), V("y")), (("pvar", "m"), b)])
        for n in (10, 15, 20, 25, 30, 36, 42, 50, 60, 84, 100, 126):
            yield "recursion, %s, %d" % (name, n), ([], [D("w", w(body))], [A(V("w"), V("w"), C(n))])


def lets():
    for n in (240, 400, 650):
        e = V("a0")
        for k in reversed(range(n % 255)):
            e = L("a%d" % k, V("a%d" % (k - 1)) if k else V("y"), e)
        yield "let chain %d" % (n % 255), ([], [], [e])
    for n in (330, 500):
        yield "let list %d" % n, ([], [D("a%d" % k, I(ADD, V("a%d" % (k - 1)), C(1)) if k else V("y")) for k in range(n)], [])


def steps():
    """Pairs as deep as the made nodes allow: each definition adds 240 to the one before, handed over in a function so that no parameter is bound to it; then used 225 levels down."""
    for side, f in {"left": lambda l: lambda e: PR(e, l), "right": lambda l: lambda e: PR(l, e), "list": lambda l: lambda e: CO(l, e)}.items():
        for name, leaf in {"units": U, "functions": V("f")}.items():
            for k in (8, 9, 10, 11):
                call = A(V("g"), F([("punit",)], V("t")))
                defs = [D("f", F(["z"], V("y"))), D("g", F(["h"], repeated(240, f(leaf), A(V("h"), U)))), D("t", leaf)] + [D("t", call)] * k
                uses = {
                    "bound": L("k", V("t"), U), "folded": A(V("fold"), CO(V("t"), N), F(["e", "a"], V("a")), U), "equal": I(EQ, V("t"), V("t")),
                    "captured": L("k", PR(C(1), U), V("t")), "applied": A(V("t"), C(1)), "fresh": A(V("fresh"), V("t")),
                }
                for use, e in uses.items():
                    yield "%d x 240 %s to the %s, %s" % (k, name, side, use), ([], defs, [repeated(225, lambda x: A(F(["q"], U), x), e)])


def measured(program, record):
    """The answered number, and the least kilobytes of stack with which the program ends well; None where 64 MiB do not suffice."""
    answer = model_answer(record)
    replays = os.path.basename(program) == "test_eval"
    data = group(record, answer, [(LAST_STORE,)]) if replays else record

    def ends(kb):
        limit = lambda: resource.setrlimit(resource.RLIMIT_STACK, (kb * 1024, kb * 1024))
        done = subprocess.run([program], input=data, capture_output=True, preexec_fn=limit)
        if done.returncode == 0 and replays and not done.stdout.endswith(b" 0 differ\n"):
            raise SystemExit("differs: %s" % record.hex())
        return done.returncode == 0

    low, high = 256, 65536
    if not ends(high):
        return answer, None
    while high - low > 8:
        middle = (low + high) // 2
        if ends(middle):
            high = middle
        else:
            low = middle
    return answer, high


def main():
    program, word, seen = sys.argv[1], (sys.argv[2:] or [""])[0], []
    makers = (steps, negations, sums, pairs, folds, levels, recursions, lets)
    modules = [m for make in makers for m in make()] + [("directed: " + name, m) for name, m in directed.CASES]
    for name, module in modules:
        if word not in name:
            continue
        record = module_record(module)
        if record is None:
            print("%s: too long a record" % name)
            continue
        answer, kb = measured(program, record)
        seen.append((kb or 1 << 30, name, answer))
    for kb, name, answer in sorted(seen, key=lambda x: -x[0]):
        print("%7d kB  %-60s %s" % (kb, name, answer))


if __name__ == "__main__":
    model.deep(main)
