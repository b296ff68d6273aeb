"""Random modules that tell wrong evaluators apart: closures in pairs and lists, self application (keys already
present), lost closures and their splits, fold over closures, fresh on everything, doubled matches, implicit environments.

    module(KIND, random.Random(SEED))   kinds: typed, untyped, closures, lambda, plain; mix, lost, combi, obs, rec, each of
                                        these five also with + for a module repaired until it is accepted
"""
import model
from trees import *
from random_modules import INT, UNIT_T, Closures, G, Lambda, Plain, Untyped

P2 = lambda a, b: ('pprod', PV(a), PV(b))


class Mix(Closures):
    """Typed, with lists, folds, iters and fresh over closures."""

    def typ(self, d=2):
        x = self.r.random()
        if d == 0 or x < .22: return INT
        if x < .45: return ('prod', self.typ(d - 1), self.typ(d - 1))
        if x < .6: return ('list', self.typ(d - 1))
        return ('fun', self.typ(d - 1), self.typ(d - 1))

    def expr(self, t, env, d):
        self.budget -= 1
        if d <= 0 or self.budget <= 0:
            return self.leaf(t, env)
        r = self.r.random()
        if r < .07:
            et = self.typ(2)
            l = self.expr(('list', et), env, d - 1)
            f = self.expr(('fun', et, ('fun', t, t)), env, d - 1)
            return A(V('fold'), l, f, self.expr(t, env, d - 1))
        if r < .12:
            k = C(self.r.choice([0, 1, 2, 3]))
            return A(V('iter'), k, self.expr(('fun', t, t), env, d - 1), self.expr(t, env, d - 1))
        if r < .15:
            return A(V('fresh'), self.expr(t, env, d - 1))
        if r < .18:
            return ('match', V(self.r.choice(['s0', 's1'])), [(P2('u', 'w'), self.expr(t, dict(env, u=INT, w=INT), d - 1))])
        if isinstance(t, tuple) and t[0] == 'list' and r > .6:
            if r < .68: return N
            return CO(self.expr(t[1], env, d - 1), self.expr(t, env, d - 1))
        if isinstance(t, tuple) and t[0] == 'list' and r > .55:
            return CO(self.leaf(t[1], env), self.leaf(t, env))
        return super().expr(t, env, d)


class Lost:
    """Untyped, shaped so that closures lose ids that are then split, bound
    again, captured again, looked up through chains."""

    def __init__(self, r):
        self.r = r
        self.names = ['a', 'b', 'c', 'f', 'g', 'h']

    def n(self):
        return self.r.choice(self.names)

    def pat(self, d):
        x = self.r.random()
        if d == 0 or x < .6: return PV(self.n())
        if x < .9: return ('pprod', self.pat(d - 1), self.pat(d - 1))
        if x < .96: return ('pas', self.pat(d - 1), self.n())
        return ('pcons', self.pat(d - 1), self.pat(d - 1))

    def val(self, d):
        """something that often is a pair of closures or numbers"""
        r = self.r
        x = r.random()
        if d == 0:
            return r.choice([V(self.n()), V(self.n()), C(r.randint(0, 3)), F([self.n()], V(self.n())), V('i%d' % r.randrange(3))])
        if x < .25: return PR(self.val(d - 1), self.val(d - 1))
        if x < .45: return F([self.n()], self.val(d - 1))
        if x < .55: return F([self.n(), self.n()], self.val(d - 1))
        if x < .67: return ('let', self.pat(1), self.val(d - 1), self.val(d - 1))
        if x < .8: return A(self.fun(d - 1), self.val(d - 1))
        if x < .9: return ('match', self.val(d - 1), [(self.pat(2), self.val(d - 1))])
        if x < .93: return A(V('fresh'), self.val(d - 1))
        if x < .96: return lst(*[self.val(d - 1) for _ in range(r.randint(1, 3))])
        return V(self.n())

    def fun(self, d):
        r = self.r
        x = r.random()
        if x < .4: return V(self.n())
        if x < .6 or d == 0: return F([self.n()], self.val(d))
        if x < .75: return L(self.n(), self.val(d - 1), F([self.n()], PR(self.val(d - 1), F([self.n()], V(self.n())))))
        if x < .85: return A(self.fun(d - 1), self.val(d - 1))
        if x < .9: return A(V('fold'), lst(*[self.val(d - 1) for _ in range(r.randint(0, 3))]))
        return A(V('iter'), C(r.randint(0, 3)))

    def lost(self):
        """let y = pair in b -> (.., z -> y): y is lost when applied"""
        r = self.r
        y = self.n()
        inner = F([r.choice(['z', y, self.n()])], r.choice([V(y), PR(V(y), V(y)), A(V(y), C(1)), ('match', V(y), [(P2(self.n(), self.n()), self.val(1))])]))
        body = PR(r.choice([V(y), self.val(1), ('match', V(y), [(self.pat(1), self.val(1))])]), inner)
        if r.random() < .3:
            inner2 = F(['z'], PR(V(y), inner))
            body = PR(inner2, inner)
        return L(y, r.choice([PR(V('i0'), V('i1')), self.val(2), C(5), V('s0')]), F([self.n()], body))

    def module(self):
        r = self.r
        defs, exprs = [], []
        for _ in range(r.randint(1, 6)):
            x = r.random()
            if x < .3:
                g, h = self.n(), self.n()
                defs.append(D(g, self.lost()))
                defs.append((P2(self.n(), h), A(V(g), self.val(1))))
                defs.append(D(self.n(), A(V(h), self.val(1))))
            elif x < .6:
                defs.append(D(self.n(), self.val(r.randint(1, 3))))
            elif x < .8:
                defs.append((self.pat(1), A(self.fun(2), self.val(2))))
            else:
                defs.append((self.pat(2), PR(self.val(2), self.val(2))))
        for _ in range(r.randint(1, 4)):
            x = r.random()
            m = ('match', A(V(self.n()), self.val(1)), [(self.pat(2), I(EQ, V(self.n()), V(self.n())))])
            exprs.append(m if x < .5 else self.val(3))
        return [], defs, exprs


class Combi:
    """Closed combinators over pairs and lists of closures; most applications
    succeed: a pool of well-shaped values is passed around with self
    application, so keys are often present and implicit_env is rich."""

    def __init__(self, r):
        self.r = r

    def module(self):
        r = self.r
        defs = [
            D('k', F(['x', 'y'], V('x'))),
            D('dup', F(['x'], PR(V('x'), V('x')))),
            D('app2', F(['f', 'x'], A(V('f'), A(V('f'), V('x'))))),
            D('cp', F([P2('f', 'g'), 'x'], PR(A(V('f'), V('x')), A(V('g'), V('x'))))),
            D('self', F(['f'], A(V('f'), V('f')))),
            D('wrap', F(['f'], L('w', PR(V('f'), V('f')), F(['q'], ('match', V('w'), [(P2('a', 'b'), PR(V('b'), F(['z'], PR(V('a'), V('q')))))]))))),
            D('hold', F(['f'], F(['q'], L('v', V('f'), F(['z'], PR(V('v'), PR(V('q'), V('z')))))))),
            D('mapl', F(['f', 'l'], A(V('fold'), V('l'), F(['e', 'acc'], CO(A(V('f'), V('e')), V('acc'))), N))),
            D('tolist', F(['x'], CO(V('x'), CO(F(['z'], V('x')), CO(F(['u', 'v'], PR(V('u'), V('x'))), N))))),
            D('foldk', F(['l', 'z'], A(V('fold'), V('l'), F(['e', 'acc'], PR(V('e'), V('acc'))), V('z')))),
            D('twice', A(V('iter'), C(2))),
            D('two', F(['x'], ('match', PR(V('x'), V('x')), [(('pas', P2('a', 'b'), 'c'), PR(V('c'), F(['z'], PR(V('a'), V('z')))))]))),
        ]
        names = [p[1] for p, _ in defs] + ['fresh', 'fold', 'iter']
        for j in range(r.randint(2, 7)):
            v = self.val(names, r.randint(1, 4))
            x = r.random()
            if x < .7:
                defs.append(D('x%d' % j, v))
                names += ['x%d' % j] * 3
            else:
                defs.append((P2('x%d' % j, 'y%d' % j), v))
                names += ['x%d' % j, 'y%d' % j] * 2
        exprs = [self.val(names, 3) for _ in range(r.randint(0, 3))]
        if r.random() < .5:
            exprs.append(I(EQ, self.val(names, 2), self.val(names, 2)))
        return [], defs, exprs

    def val(self, names, d):
        r = self.r
        x = r.random()
        if d == 0:
            return r.choice([V(r.choice(names)), V(r.choice(names)), C(r.randint(0, 3)), V('i0')])
        v = lambda: self.val(names, d - 1)
        if x < .1: return PR(v(), v())
        if x < .15: return CO(v(), r.choice([N, v()]))
        if x < .2: return L('t', v(), self.val(names + ['t'] * 4, d - 1))
        if x < .25: return F(['t'], self.val(names + ['t'] * 4, d - 1))
        if x < .3: return ('match', v(), [(P2('t', 'o'), self.val(names + ['t', 'o'] * 3, d - 1))])
        if x < .33: return A(V('fresh'), v())
        if x < .45: return A(V('self'), V(r.choice(names)))
        if x < .55: return A(V('mapl'), V(r.choice(names)), A(V('tolist'), v()))
        if x < .6: return A(V('foldk'), A(V('tolist'), v()), v())
        if x < .7: return A(V('twice'), V(r.choice(['dup', 'wrap', 'hold', 'two', 'tolist'])), v())
        if x < .8: return A(V(r.choice(['dup', 'wrap', 'hold', 'two', 'tolist'])), v())
        if x < .9: return A(A(V('hold'), v()), v())
        return A(V(r.choice(names)), v())


def accepted(mod, limit=1 << 19):
    try:
        model.evaluate_record(record(*mod), limit)
        return True
    except model.Refuse:
        return False


def repaired(kind, r, rounds=3):
    """Several modules in a row, keeping only what is accepted."""
    pubs, defs, exprs = [], [], []
    for _ in range(rounds):
        _, d2, e2 = module(kind, r)
        for x in d2:
            if accepted((pubs, defs + [x], [])): defs.append(x)
        for x in e2:
            if accepted((pubs, defs, exprs + [x])): exprs.append(x)
    exprs = [x for x in exprs if accepted((pubs, defs, [x]))]
    while exprs and not accepted((pubs, defs, exprs)): exprs.pop()
    return pubs, defs, exprs


class Obs(Mix):
    """Mix, and every definition is then looked at down to numbers."""

    def sample(self, t, d=2):
        if t == INT: return C(self.r.randint(2, 99))
        if t == UNIT_T: return U
        if t[0] == 'prod': return PR(self.sample(t[1], d), self.sample(t[2], d))
        if t[0] == 'list': return lst(*[self.sample(t[1], d - 1) for _ in range(self.r.randint(0, 2) if d else 0)])
        n = self.r.choice(['z', 'y'])
        return L('cap', self.sample(INT), F([n], self.sample(t[2], d - 1) if t[2] != t[1] else V(n)))

    def look(self, t, e, d=4):
        self.k += 1
        if t == INT: return I(EQ, e, V('o%d' % self.r.randrange(6)))
        if t == UNIT_T or d == 0: return ('seq', [e, U])
        a, b = 'l%d' % self.k, 'r%d' % self.k
        if t[0] == 'prod':
            return ('match', e, [(P2(a, b), ('seq', [self.look(t[1], V(a), d - 1), self.look(t[2], V(b), d - 1)]))])
        if t[0] == 'list':
            return A(V('fold'), e, F([a, b], ('seq', [self.look(t[1], V(a), d - 1), V(b)])), U)
        return self.look(t[2], A(e, self.sample(t[1])), d - 1)

    def module(self, ndefs, nexprs, d):
        self.k = 0
        env = {}
        defs, exprs = [], []
        per = self.budget
        for _ in range(self.r.randint(2, ndefs)):
            self.budget = per
            t = self.typ(3)
            v = self.expr(t, env, d)
            defs.append((self.pattern(t, env), v))
        for n, t in list(env.items())[-nexprs:]:
            exprs.append(self.look(t, V(n)))
        return [], defs, exprs


class Rec:
    """A partial application that gets itself: its keys are bound where it is
    applied again, so implicit_env matters; all results are looked at."""

    def __init__(self, r):
        self.r = r

    def num(self, ns):
        r = self.r
        return r.choice([V(r.choice(ns)), C(r.randint(2, 50)), I(ADD, V(r.choice(ns)), C(1))])

    def clo(self, ns):
        r = self.r
        x = r.random()
        if x < .4: return F(['z'], V(r.choice(ns + ['z'])))
        if x < .7: return F(['z'], PR(V(r.choice(ns)), V(r.choice(ns + ['z']))))
        if x < .85: return L('u', V(r.choice(ns)), F(['z'], PR(V('u'), V(r.choice(ns)))))
        return L(('pas', P2('u', 'v'), 'w'), PR(V(r.choice(ns)), self.clo(ns)), F(['z'], V(r.choice(['u', 'v', 'w']))))

    def selfarg(self):
        r = self.r
        x = r.random()
        if x < .4: return V('s')
        if x < .6: return F(['a', 'b'], A(V('s'), V('a'), V('b')))
        if x < .8: return L('t', V('x'), F(['a', 'b'], A(V('s'), V('a'), V('b'))))
        return F(['a'], A(V('s'), V('a')))

    def call(self):
        return A(V('s'), self.selfarg(), I(SUB, V('m'), C(1)))

    def step(self):
        r = self.r
        ns = ['x', 'm', 's']
        x = r.random()
        if x < .15: return PR(self.call(), self.clo(ns))
        if x < .3: return L('t', self.call(), PR(V('t'), self.clo(ns + ['t'])))
        if x < .5: return ('match', self.call(), [(P2('a', 'b'), PR(V(r.choice(['a', 'b', 'x'])), self.clo(ns + ['a', 'b'])))])
        if x < .65: return A(F(['q'], PR(V('q'), self.clo(ns + ['q']))), self.call())
        if x < .8: return A(F([P2('q', 'e'), 'y'], PR(V('e'), F(['z'], A(V('e'), V(r.choice(['q', 'y', 'z'])))))), self.call(), self.clo(ns))
        if x < .9: return A(V('fold'), lst(self.clo(ns), self.clo(ns), V('x')), F(['e', 'acc'], PR(V('e'), F(['z'], V(r.choice(['e', 'acc', 'x']))))), self.call())
        return A(V('iter'), C(r.randint(1, 2)), F([P2('a', 'b')], PR(V('b'), self.clo(['a', 'b', 'm']))), self.call())

    def module(self):
        r = self.r
        defs = []
        for j in range(r.randint(1, 3)):
            val = r.choice([C(r.randint(2, 50)), PR(V('i0'), V('i1')), F(['z'], V('i2')), PR(F(['z'], V('z')), C(9)), V('i0')])
            body = ('match', V('k'), [(('pconst', 0), PR(V('x'), self.clo(['x', 's']))), (PV('m'), self.step())])
            p = 'p%d' % j
            defs.append(D(p, A(F(['x', 's', 'k'], body), val)))
            w = V('p%d' % r.randint(0, j)) if r.random() < .3 else V(p)
            defs.append((('pas', P2('a%d' % j, 'b%d' % j), 'c%d' % j), A(V(p), w, C(r.randint(0, 3)))))
            defs.append(D('r%d' % j, A(V('b%d' % j), C(r.randint(100, 200)))))
            if r.random() < .5: defs.append(D('t%d' % j, A(V('b%d' % j), V('c%d' % j))))
            if r.random() < .3: defs.append(D('f%d' % j, A(V('fresh'), V('c%d' % j))))
        return [], defs, []


def module(kind, r):
    if kind.endswith('+'): return repaired(kind[:-1], r)
    if kind == 'typed': return G(r, r.choice([20, 40, 80])).module()
    if kind == 'untyped': return Untyped(r).module(r.randint(1, 5))
    if kind == 'closures': return Closures(r, r.choice([30, 60, 120]), r.choice([4, 8, 16])).module(7, 4, r.randint(3, 7))
    if kind == 'lambda': return Lambda(r, r.choice([3, 5])).module(r.randint(2, 5))
    if kind == 'plain': return Plain(r).module()
    if kind == 'mix': return Mix(r, r.choice([30, 60, 120]), r.choice([4, 8, 16])).module(7, 4, r.randint(3, 6))
    if kind == 'obs': return Obs(r, r.choice([20, 40, 80]), r.choice([4, 8, 16])).module(6, 8, r.randint(3, 5))
    return {'lost': Lost, 'combi': Combi, 'rec': Rec}[kind](r).module()
