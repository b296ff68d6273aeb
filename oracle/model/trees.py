"""Modules as Python trees with names (bytes or str), and their source records.

Trees as in model.py but with names for ids: ('var','x'), ('pvar','x'),
('pas', p, 'x'), ('fun', [pats], body), ('match', v, [(pat, expr)...]),
('seq', [..]), ('let', pat, val, body)...
"""
import os
import sys

sys.path.append(os.path.join(os.path.dirname(os.path.abspath(__file__)), '..', '..', 'tools'))
from assemble import Builder


class Trees(Builder):
    def put(self, e):
        k = e[0]
        p = self.put
        if k == 'unit': return self.node(0)
        if k == 'nil': return self.node(1)
        if k in ('prod', 'cons', 'app'):
            a = p(e[1]); b = p(e[2])
            return self.node({'prod': 2, 'cons': 3, 'app': 6}[k], a, b)
        if k == 'infix':
            a = p(e[2]); b = p(e[3])
            return self.node(4, a, b, e[1])
        if k == 'neg': return self.node(5, p(e[1]))
        if k == 'const': return self.constant(7, e[1])
        if k == 'var': return self.node(8, self.name(e[1]))
        if k == 'fun':
            it = [(p(x), 0) for x in e[1]]
            b = p(e[2])
            return self.node(9, self.chain(it), b)
        if k == 'let':
            a = p(e[1]); b = p(e[2]); c = p(e[3])
            return self.node(11, a, b, c)
        if k == 'match':
            v = p(e[1])
            it = [(p(x), p(y)) for x, y in e[2]]
            return self.node(12, v, self.chain(it))
        if k == 'seq':
            it = [(p(x), 0) for x in e[1]]
            return self.node(13, self.chain(it))
        if k == 'punit': return self.node(16)
        if k == 'pnil': return self.node(17)
        if k == 'pas':
            a = p(e[1])
            return self.node(18, a, self.name(e[2]))
        if k in ('pprod', 'pcons'):
            a = p(e[1]); b = p(e[2])
            return self.node({'pprod': 19, 'pcons': 20}[k], a, b)
        if k == 'pvar': return self.node(21, self.name(e[1]))
        if k == 'pconst': return self.constant(22, e[1])
        raise AssertionError(k)


def record(pubs, defs, exprs):
    b = Trees()
    b.publics += map(b.name, pubs)
    for p, v in defs:
        b.definitions.append((b.put(p), b.put(v)))
    b.expressions += map(b.put, exprs)
    return b.bytes()


# -- shorthand
from model import DIV, DIVZ, MUL, ADD, SUB, EQ, EXP, IDIV, MOD
def V(n): return ('var', n)
def C(n): return ('const', n)
def PV(n): return ('pvar', n)
def I(op, a, b): return ('infix', op, a, b)
def A(f, *xs):
    for x in xs:
        f = ('app', f, x)
    return f
def F(ps, body): return ('fun', [PV(p) if isinstance(p, str) else p for p in ps], body)
def L(p, v, b): return ('let', PV(p) if isinstance(p, str) else p, v, b)
def PR(a, b): return ('prod', a, b)
def CO(a, b): return ('cons', a, b)
U = ('unit',)
N = ('nil',)
def lst(*xs):
    r = N
    for x in reversed(xs):
        r = CO(x, r)
    return r
def D(p, v): return (PV(p) if isinstance(p, str) else p, v)
