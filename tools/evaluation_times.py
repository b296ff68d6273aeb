#!/usr/bin/env python3
"""Times evaluation, the port's and the Rust's, on the same source records: docs/PERFORMANCE.md has what came out.

    python3 tools/evaluation_times.py ORACLE TWIN PROGRAM [SEEDS]

PROGRAM is test_eval, given each record with a store that is just full; it reads, numbers, evaluates, and compares the flat record and the store.
ORACLE runs `evaluate`: the same up to the flat record, by the unchanged Rust, without the passes. First the accepted records of SEEDS seeds (2,000 by default) of each kind, one process
each side for the whole kind; then modules of one form and growing size, each repeated. Last the slowest of the port, by microseconds a record over all records of
both, whatever their answer. Printed is processor time, the least of three runs.
"""
import resource
import subprocess
import sys
import tempfile

from source_records import LAST_STORE, ORACLE_KINDS, answers, directed, generated, group, model, model_answer, module_record
from trees import A, ADD, C, D, F, I, L, MUL, PR, V, lst


SOME = ("typed", "closures", "mix", "obs", "rec", "mix+", "lost+")  # kinds of the model that the Rust mostly accepts and that make enough
MEMORY = 4 << 30  # the Rust's memory explodes on some


def processor_time(command, data):
    """Seconds, the least of three runs, with what the last one printed; or None where a run fails."""
    limit = lambda: resource.setrlimit(resource.RLIMIT_AS, (MEMORY, MEMORY))
    took = []
    with tempfile.NamedTemporaryFile() as f:
        f.write(data)
        f.flush()
        for _ in range(3):
            before = resource.getrusage(resource.RUSAGE_CHILDREN)
            with open(f.name, "rb") as stdin:
                done = subprocess.run(command, stdin=stdin, capture_output=True, preexec_fn=limit)
            after = resource.getrusage(resource.RUSAGE_CHILDREN)
            if done.returncode:
                return None, done.stdout
            took.append(after.ru_utime + after.ru_stime - before.ru_utime - before.ru_stime)
    return min(took), done.stdout


def both(what, oracle, program, records, known, times):
    """A line of the table: records, made nodes, microseconds a record of each, the ratio, and nanoseconds of the port for a made node. The Rust gets a tenth of the times."""
    groups = [group(r, a, [(16 * a.made,)]) for r, a in zip(records, known)]
    port, out = processor_time([program], b"".join(groups) * times)
    assert out.decode().startswith("%d accepted, 0 refused, 0 differ" % (times * len(groups))), out
    fewer = (times + 9) // 10
    rust, _ = processor_time([oracle, "evaluate"], b"".join(r.hex().encode() + b"\n" for r in records) * fewer)
    n, made = len(groups), sum(a.made for a in known)
    port = port / times
    compared = "%8.0f us %6.2f" % (rust / fewer / n * 1e6, port / (rust / fewer)) if rust else "    more than 4 GiB"
    print("%-48s %5d records %7.0f made nodes each %8.0f us %s %7.1f ns a node" % (what, n, made / n, port / n * 1e6, compared, port / made * 1e9), flush=True)


def kinds(oracle, twin, program, seeds):
    seen = []
    for kind in ORACLE_KINDS + SOME:
        records = generated(twin, 7000001, seeds if kind in ORACLE_KINDS else min(seeds, 60), kind)
        known = answers(twin, records, jobs=1)
        seen += zip(("%s" % kind for _ in records), records, known)
        chosen = [(r, a) for r, a in zip(records, known) if a.by == "the Rust's record" and a.made]
        if chosen:
            both(kind, oracle, program, *zip(*chosen), 1)
    return seen


def growing():
    """Modules of one form and growing size: name, module."""
    square = F(["x"], I(MUL, V("x"), V("x")))
    for n in (4, 8, 15):
        yield "%d squares, by iter 100 each" % n, ([], [D("f", square)] + [D("a", A(V("iter"), C(100), V("f"), V("y")))] * n, [])
    for n in (60, 120, 240):
        yield "sum of a list of %d by fold" % n, ([], [D("l", lst(*[V("y")] * n)), D("s", A(V("fold"), V("l"), F(["e", "a"], I(ADD, V("e"), V("a"))), C(0)))], [])
    for n in (125, 250, 500):
        yield "%d sums, one after another" % n, ([], [D("x", I(ADD, V("y"), V("z")))] * n, [])
    mk = F(["x"], L("w", I(ADD, V("x"), C(1)), F(["z"], I(MUL, V("w"), V("z")))))
    for n in (50, 100, 200):
        yield "%d closures made and applied" % n, ([], [D("mk", mk)] + [D("c", A(V("mk"), V("y"))), D("r", A(V("c"), V("u")))] * n, [])
    for n in (15, 30, 60):
        yield "list of %d closures through a function, 10 times" % n, ([], [D("mk", mk), D("id", F(["q"], V("q"))), D("l", lst(*[A(V("mk"), C(j)) for j in range(n)])), D("k", A(V("iter"), C(10), V("id"), V("l")))], [])
    for n in (100, 200, 400):
        yield "%d pairs taken apart" % n, ([], [(("pprod", ("pvar", "p"), ("pvar", "q")), PR(V("y"), I(ADD, V("y"), C(1))))] * n, [])


def form_times(oracle, program):
    seen = []
    for name, module in growing():
        record = module_record(module)
        if record is None:
            print("%s: too long a record" % name)
            continue
        answer = model_answer(record)
        seen.append((name, record, answer))
        if answer.number:
            print("%s: %s" % (name, answer))
            continue
        both(name, oracle, program, [record], [answer], 200)
    return seen


def slowest(program, seen):
    """The port's slowest records: each run 8 times with the largest store, less what the smallest module takes."""
    def took(record, answer):
        return processor_time([program], group(record, answer, [(LAST_STORE,)] * 8))[0] / 8

    empty = module_record(([], [], []))
    base = took(empty, model_answer(empty))
    rows = sorted(((took(r, a) - base, name, a) for name, r, a in seen if a.made > 3000), key=lambda x: -x[0])
    print("the smallest module with the largest store: %.0f us; the slowest take so much more:" % (base * 1e6))
    for t, name, a in rows[:25]:
        print("%-44s %8.0f us %6.1f ns a node  %s" % (name, t * 1e6, t / a.made * 1e9, a))


def main():
    oracle, twin, program = sys.argv[1:4]
    seeds = int(sys.argv[4]) if len(sys.argv) > 4 else 2000
    seen = form_times(oracle, program)
    seen += kinds(oracle, twin, program, seeds)
    cases = [("directed: " + name, module_record(m)) for name, m in directed.CASES]
    seen += [(name, r, model_answer(r)) for name, r in cases if r is not None]
    slowest(program, seen)


if __name__ == "__main__":
    model.deep(main)
