"""Random modules: typed ones (closures, lists, pairs), untyped ones, plain ones."""
import random
from trees import *

INT, UNIT_T = 'int', 'unit'
# beyond 32 bits: the nearest, numbers whose low word or element is small, the ends of 64 bits
WIDE = [2 ** 31, -2 ** 31 - 1, 2 ** 32, 2 ** 32 - 1, -2 ** 32, 3 * (2 ** 31 - 1), -3 * (2 ** 31 - 1) + 1, 2 ** 63 - 1, -2 ** 63]


class G:
    def __init__(self, rnd, size=40, names=8):
        self.r = rnd
        self.budget = size
        self.pool = ['n%d' % i for i in range(names)]
        self.inputs = ['i%d' % i for i in range(4)]

    def fresh_name(self):
        return self.r.choice(self.pool)

    def typ(self, d=2):
        x = self.r.random()
        if d == 0 or x < .45: return INT
        if x < .52: return UNIT_T
        if x < .68: return ('prod', self.typ(d - 1), self.typ(d - 1))
        if x < .78: return ('list', self.typ(d - 1))
        return ('fun', self.typ(d - 1), self.typ(d - 1))

    def const(self):
        return self.r.choice([0, 1, 2, 3, -1, -2, 5, 7, 0, 1, 127, 2147483647, -2147483648, 1073741824, self.r.choice(WIDE), self.r.randint(-50, 50)])

    def pattern(self, t, env, d=2):
        """pattern for a value of type t that surely fits; extends env"""
        r = self.r.random()
        if d > 0 and r < .15:
            p = self.pattern(t, env, d - 1)
            n = self.fresh_name()
            env[n] = t
            return ('pas', p, n)
        if r < .5 or d == 0:
            n = self.fresh_name()
            env[n] = t
            return ('pvar', n)
        if t == UNIT_T:
            return ('punit',)
        if isinstance(t, tuple) and t[0] == 'prod':
            a = self.pattern(t[1], env, d - 1)
            return ('pprod', a, self.pattern(t[2], env, d - 1))
        n = self.fresh_name()
        env[n] = t
        return ('pvar', n)

    def leaf(self, t, env):
        c = [n for n, x in env.items() if x == t]
        if c and self.r.random() < .8:
            return V(self.r.choice(c))
        if t == INT:
            if self.r.random() < .5:
                return V(self.r.choice(self.inputs))
            return C(self.const())
        if t == UNIT_T:
            return U
        if t[0] == 'prod':
            return PR(self.leaf(t[1], env), self.leaf(t[2], env))
        if t[0] == 'list':
            if self.r.random() < .4: return N
            return CO(self.leaf(t[1], env), N)
        if t[0] == 'fun':
            e2 = dict(env)
            p = self.pattern(t[1], e2)
            return ('fun', [p], self.leaf(t[2], e2))

    def expr(self, t, env, d):
        self.budget -= 1
        if d <= 0 or self.budget <= 0:
            return self.leaf(t, env)
        r = self.r.random()
        if r < .12:
            vt = self.typ()
            v = self.expr(vt, env, d - 1)
            e2 = dict(env)
            p = self.pattern(vt, e2)
            return ('let', p, v, self.expr(t, e2, d - 1))
        if r < .24:
            at = self.typ(1)
            f = self.expr(('fun', at, t), env, d - 1)
            return A(f, self.expr(at, env, d - 1))
        if r < .27:
            n = self.r.randint(1, 3)
            return ('seq', [self.expr(self.r.choice([UNIT_T, INT]), env, d - 2) for _ in range(n - 1)] + [self.expr(t, env, d - 1)])
        if r < .36:
            vt = self.typ()
            v = self.expr(vt, env, d - 1)
            arms = []
            if vt == INT and self.r.random() < .5:
                v = C(self.r.choice([0, 1, 2]))
                for k in range(self.r.randint(0, 2)):
                    arms.append((('pconst', self.r.choice([0, 1, 2, 3])), self.expr(t, env, d - 2)))
            e2 = dict(env)
            p = self.pattern(vt, e2)
            arms.append((p, self.expr(t, e2, d - 1)))
            return ('match', v, arms)
        if r < .39:
            # structured input
            e2 = dict(env)
            a, b = self.fresh_name(), self.fresh_name()
            e2[a] = INT
            e2[b] = INT
            return ('match', V(self.r.choice(['s0', 's1'])), [(('pprod', PV(a), PV(b)), self.expr(t, e2, d - 1))])
        if r < .43:
            return A(V('fresh'), self.expr(t, env, d - 1)) if not has_fun(t) else self.leaf(t, env)
        if r < .48:
            k = C(self.r.choice([0, 1, 2, 3, -1]))
            f = self.expr(('fun', t, t), env, d - 1)
            return A(V('iter'), k, f, self.expr(t, env, d - 1))
        if r < .52:
            et = self.typ(1)
            l = self.expr(('list', et), env, d - 1)
            f = self.expr(('fun', et, ('fun', t, t)), env, d - 1)
            return A(V('fold'), l, f, self.expr(t, env, d - 1))
        if t == INT:
            if r < .6:
                return ('neg', self.expr(INT, env, d - 1))
            if r < .66:
                return I(EXP, self.expr(INT, env, d - 1), C(self.r.choice([0, 1, 2, 3, 5, -1, -2, 7])))
            if r < .93:
                op = self.r.choice([MUL, ADD, SUB, MUL, ADD, SUB, DIVZ, DIV, IDIV, MOD])
                return I(op, self.expr(INT, env, d - 1), self.expr(INT, env, d - 1))
            return self.leaf(t, env)
        if t == UNIT_T:
            if r < .9:
                q = self.r.choice([INT, INT, self.typ(1)])
                if has_fun(q): q = INT
                return I(EQ, self.expr(q, env, d - 1), self.expr(q, env, d - 1))
            return U
        if t[0] == 'prod':
            return PR(self.expr(t[1], env, d - 1), self.expr(t[2], env, d - 1))
        if t[0] == 'list':
            if r < .65: return N
            return CO(self.expr(t[1], env, d - 1), self.expr(t, env, d - 1))
        if t[0] == 'fun':
            e2 = dict(env)
            ps = [self.pattern(t[1], e2)]
            rt = t[2]
            while isinstance(rt, tuple) and rt[0] == 'fun' and self.r.random() < .6:
                ps.append(self.pattern(rt[1], e2))
                rt = rt[2]
            return ('fun', ps, self.expr(rt, e2, d - 1))

    def module(self, ndefs=5, nexprs=4, d=5):
        env = {}
        defs, exprs = [], []
        pubs = [self.r.choice(self.inputs + self.pool + ['s0']) for _ in range(self.r.randint(0, 3))]
        per = self.budget
        for _ in range(self.r.randint(0, ndefs)):
            self.budget = per
            t = self.typ(3)
            v = self.expr(t, env, d)
            p = self.pattern(t, env)
            defs.append((p, v))
        for _ in range(self.r.randint(0, nexprs)):
            self.budget = per
            t = self.r.choice([UNIT_T, UNIT_T, UNIT_T, self.typ()])
            exprs.append(self.expr(t, env, d))
        return pubs, defs, exprs


def has_fun(t):
    return isinstance(t, tuple) and (t[0] == 'fun' or any(has_fun(x) for x in t[1:]))


class Untyped:
    def __init__(self, rnd, names=5):
        self.r = rnd
        self.names = ['a%d' % i for i in range(names)]

    def name(self):
        return self.r.choice(self.names + (['fresh', 'iter', 'fold'] if self.r.random() < .3 else []))

    def pat(self, d):
        x = self.r.random()
        if d == 0 or x < .6: return PV(self.name())
        if x < .65: return ('punit',)
        if x < .7: return ('pnil',)
        if x < .75: return ('pas', self.pat(d - 1), self.name())
        if x < .85: return ('pprod', self.pat(d - 1), self.pat(d - 1))
        if x < .92: return ('pcons', self.pat(d - 1), self.pat(d - 1))
        return ('pconst', self.r.choice([0, 1, 2]))

    def expr(self, d):
        x = self.r.random()
        e, p = self.expr, self.pat
        if d == 0:
            return self.r.choice([V(self.name()), V(self.name()), C(self.r.randint(-2, 3)), U, N])
        if x < .12: return I(self.r.randrange(9), e(d - 1), e(d - 1))
        if x < .16: return ('neg', e(d - 1))
        if x < .36: return A(e(d - 1), e(d - 1))
        if x < .5: return ('fun', [p(2) for _ in range(self.r.randint(1, 3))], e(d - 1))
        if x < .62: return ('let', p(2), e(d - 1), e(d - 1))
        if x < .7: return PR(e(d - 1), e(d - 1))
        if x < .76: return CO(e(d - 1), self.r.choice([N, e(d - 1)]))
        if x < .86: return ('match', e(d - 1), [(p(2), e(d - 1)) for _ in range(self.r.randint(1, 2))])
        if x < .9: return ('seq', [e(d - 1) for _ in range(self.r.randint(1, 3))])
        return e(0)

    def module(self, d=4):
        r = self.r
        pubs = [self.name() for _ in range(r.randint(0, 2))]
        defs = [(self.pat(2) if r.random() < .3 else PV(self.name()), self.expr(r.randint(0, d))) for _ in range(r.randint(0, 5))]
        exprs = [self.expr(r.randint(0, d)) for _ in range(r.randint(0, 4))]
        return pubs, defs, exprs


class Lambda(Untyped):
    """Mostly closures over numbers and pairs: applications likely succeed."""

    def pat(self, d):
        x = self.r.random()
        if d == 0 or x < .85: return PV(self.name())
        if x < .93: return ('pprod', self.pat(d - 1), self.pat(d - 1))
        return ('pas', self.pat(d - 1), self.name())

    def name(self):
        return self.r.choice(self.names)

    def expr(self, d):
        x = self.r.random()
        e, p = self.expr, self.pat
        if d == 0:
            return self.r.choice([V(self.name())] * 5 + [C(self.r.randint(0, 3))])
        if x < .06: return I(self.r.choice([ADD, MUL, EQ]), e(d - 1), e(d - 1))
        if x < .3: return A(e(d - 1), e(d - 1))
        if x < .58: return ('fun', [p(1) for _ in range(self.r.randint(1, 3))], e(d - 1))
        if x < .74: return ('let', p(1), e(d - 1), e(d - 1))
        if x < .84: return PR(e(d - 1), e(d - 1))
        if x < .96: return ('match', e(d - 1), [(p(2), e(d - 1))])
        return e(0)


class Plain:
    def __init__(self, rnd, names=5):
        self.r = rnd
        self.names = ['a%d' % i for i in range(names)]

    def const(self):
        return self.r.choice([0, 1, -1, 2, 3, 0, 1, 5, -7, 2147483647, 2147483646, -2147483648, 1073741823, 1073741824, -1073741824, self.r.randint(-2 ** 31, 2 ** 31 - 1),
                              self.r.choice(WIDE), self.r.randint(-2 ** 63, 2 ** 63 - 1), self.r.randint(-9, 9)])

    def cexpr(self, d):
        """constant expression"""
        if d == 0 or self.r.random() < .6:
            return C(self.r.choice([0, 1, 2, 3, 4, 5, 6, 7, -1, -2, -3, self.const()]))
        if self.r.random() < .3:
            return ('neg', self.cexpr(d - 1))
        return I(self.r.choice([ADD, SUB, MUL]), self.cexpr(d - 1), self.cexpr(d - 1))

    def expr(self, d):
        x = self.r.random()
        if d == 0 or x < .12:
            return V(self.r.choice(self.names)) if self.r.random() < .7 else C(self.const())
        if x < .25: return ('neg', self.expr(d - 1))
        if x < .42: return ('let', PV(self.r.choice(self.names)), self.expr(d - 1), self.expr(d - 1))
        if x < .52: return I(EXP, self.expr(d - 1), self.cexpr(2))
        op = self.r.choice([DIV, DIVZ, MUL, ADD, SUB, IDIV, MOD, MUL, ADD, SUB, DIVZ])
        a, b = self.expr(d - 1), self.expr(d - 1)
        if self.r.random() < .25:
            c = C(self.r.choice([0, 1, 1, 0, -1, 2]))
            if self.r.random() < .5: a = c
            else: b = c
        return I(op, a, b)

    def module(self):
        r = self.r
        d = r.randint(1, 4)
        pubs = [r.choice(self.names) for _ in range(r.randint(0, 3))]
        defs = [(PV(r.choice(self.names)), self.expr(r.randint(0, d))) for _ in range(r.randint(0, 6))]
        exprs = []
        for _ in range(r.randint(0, 4)):
            a = self.expr(r.randint(0, d))
            x = r.random()
            b = a if x < .1 else C(self.const()) if x < .2 else self.expr(r.randint(0, d))
            exprs.append(I(EQ, a, b))
        return pubs, defs, exprs


class Closures(G):
    """Closures that escape lets and curried functions, pairs of them applied
    in one another's bodies, and matches on pairs."""

    def typ(self, d=2):
        x = self.r.random()
        if d == 0 or x < .25: return INT
        if x < .55: return ('prod', self.typ(d - 1), self.typ(d - 1))
        return ('fun', self.typ(d - 1), self.typ(d - 1))

    def pattern(self, t, env, d=2):
        r = self.r.random()
        if isinstance(t, tuple) and t[0] == 'prod' and r < .35 and d > 0:
            a = self.pattern(t[1], env, d - 1)
            return ('pprod', a, self.pattern(t[2], env, d - 1))
        if r > .95 and d > 0:
            p = self.pattern(t, env, d - 1)
            n = self.fresh_name()
            env[n] = t
            return ('pas', p, n)
        n = self.fresh_name()
        env[n] = t
        return ('pvar', n)

    def appl(self, t, env, d):
        """an application giving t, preferably of something in scope"""
        c = [(n, x) for n, x in env.items() if isinstance(x, tuple) and x[0] == 'fun']
        good = []
        for n, x in c:
            args = []
            while isinstance(x, tuple) and x[0] == 'fun':
                args.append(x[1])
                x = x[2]
                if x == t:
                    good.append((n, list(args)))
        if good and self.r.random() < .85:
            n, args = self.r.choice(good)
            return A(V(n), *[self.expr(a, env, d - 2) for a in args])
        at = self.typ(1)
        return A(self.expr(('fun', at, t), env, d - 1), self.expr(at, env, d - 1))

    def expr(self, t, env, d):
        self.budget -= 1
        if d <= 0 or self.budget <= 0:
            return self.leaf(t, env)
        r = self.r.random()
        if r < .3:
            return self.appl(t, env, d)
        if r < .45:
            vt = self.typ(2)
            v = self.expr(vt, env, d - 1)
            e2 = dict(env)
            p = self.pattern(vt, e2)
            return ('let', p, v, self.expr(t, e2, d - 1))
        if r < .6:
            vt = ('prod', self.typ(1), self.typ(1))
            v = self.appl(vt, env, d - 1) if self.r.random() < .7 else self.expr(vt, env, d - 1)
            e2 = dict(env)
            p = ('pprod', self.pattern(vt[1], e2, 1), self.pattern(vt[2], e2, 1)) if self.r.random() < .7 else self.pattern(vt, e2)
            return ('match', v, [(p, self.expr(t, e2, d - 1))])
        if t == INT:
            if r < .75: return I(self.r.choice([ADD, MUL]), self.expr(INT, env, d - 1), self.expr(INT, env, d - 1))
            return self.leaf(t, env)
        if t == UNIT_T:
            return I(EQ, self.expr(INT, env, d - 1), self.expr(INT, env, d - 1))
        if t[0] == 'prod':
            return PR(self.expr(t[1], env, d - 1), self.expr(t[2], env, d - 1))
        if t[0] == 'fun':
            if self.r.random() < .3: return self.leaf(t, env)
            e2 = dict(env)
            ps = [self.pattern(t[1], e2)]
            rt = t[2]
            while isinstance(rt, tuple) and rt[0] == 'fun' and self.r.random() < .5:
                ps.append(self.pattern(rt[1], e2))
                rt = rt[2]
            return ('fun', ps, self.expr(rt, e2, d - 1))
        return self.leaf(t, env)
