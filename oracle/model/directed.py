"""Modules made to catch one mistake each: late snapshot of implicit_env, lowest hit in a rope, splits of lost closures, ...

    CASES    a list of (name, module); a module is (publics, definitions, expressions) as trees.py writes it
    NUMBERS  by name what evaluation answers: the refusal's number, or 0
"""
from functools import reduce

from trees import *

P2 = lambda a, b: ('pprod', PV(a), PV(b))
CASES, NUMBERS = [], {}
def case(name, mod, number=0):
    CASES.append((name, mod))
    NUMBERS[name] = number

# -- splits and lost closures
g = L('y', PR(V('i0'), V('i1')), F(['b'], PR(C(0), F(['z'], V('y')))))
lost = [D('g', g), (P2('s', 'h'), A(V('g'), C(0)))]
case('late snapshot', ([], lost + [D('r', A(V('g'), ('match', A(V('h'), C(1)), [(P2('p', 'q'), F(['w'], V('p')))])))], []))
case('early split', ([], lost + [D('e', ('match', A(V('h'), C(1)), [(P2('p', 'q'), C(1))])),
     D('r', A(V('g'), F(['w'], V('i2'))))], [('match', A(V('g'), F(['v'], C(3))), [(P2('a', 'k'), I(EQ, C(1), C(1)))])]))
v = L('y', PR(V('i0'), V('i1')), ('match', V('y'), [(P2('c', 'd'), F(['b', 'z'], V('y')))]))
case('split under the second let', ([], [], [('match', A(v, C(0)), [(PV('f'), C(1))]),
     ('match', A(A(F(['u'], v), C(3)), C(0), C(1)), [(P2('p', 'q'), I(EQ, V('p'), V('q')))])]))
v2 = L('y', PR(V('i0'), V('i1')), ('match', V('y'), [(P2('c', 'd'), F(['b'], F(['z'], V('y'))))]))
case('split under the second let 2', ([], [], [('match', A(A(v2, C(0)), C(1)), [(P2('p', 'q'), I(EQ, V('p'), V('q')))])]))
v3 = L('y', PR(V('i0'), V('i1')), ('match', V('y'), [(P2('c', 'd'), F(['b'], L('o', C(4), F(['z'], V('y')))))]))
case('split under the second let 3', ([], [], [('match', A(A(v3, C(0)), C(1)), [(P2('p', 'q'), I(EQ, V('p'), V('q')))])]))
case('split, then captured again', ([], lost + [D('e', ('match', A(V('h'), C(1)), [(P2('p', 'q'), C(1))])),
     (P2('s2', 'h2'), A(V('g'), F(['w'], V('s')))), D('k', A(V('h2'), C(5)))], [I(EQ, V('k'), PR(C(1), C(2)))]))
# a key whose values differ: y bound in g's env, split outside; the function in
# the argument takes the split by implicit_env, then meets g's own y
case('two values of one key', ([], lost + [D('e', ('match', A(V('h'), C(1)), [(P2('p', 'q'), C(1))])),
     D('g2', A(F(['gg', 'f'], A(V('gg'), V('f'))), V('g'))),
     D('mix', PR(A(V('h'), C(7)), PR(V('h'), V('g')))),
     (('pprod', PV('m1'), P2('m2', 'm3')), A(F(['t'], V('t')), V('mix'))),
     D('n1', A(V('m3'), V('m2'))), D('n2', A(V('m3'), V('mix')))], []))
gg = L('y', PR(V('i0'), V('i1')), F(['f'], PR(A(V('f'), C(1)), F(['z'], PR(V('y'), V('f'))))))
case('two values 2', ([], [D('g', gg), (P2('a', 'h'), A(V('g'), F(['q'], V('q')))), D('vy', A(V('h'), C(1)))]
     + [(P2('yy', 'ff'), A(V('h'), C(2)))] + [D('e', ('match', V('yy'), [(P2('p', 'q'), C(1))])),
     (P2('a2', 'h2'), A(V('g'), V('h'))), D('a3', A(V('h2'), C(3))),
     (P2('a4', 'h4'), A(V('g'), F(['w'], ('match', A(V('h'), V('w')), [(P2('m', 'n'), PR(V('m'), V('h')))]))))], []), 16)
# the lowest hit: y is split, and then taken by implicit_env over a pair of which one closure has the old y and the other has none
gy = L('y', PR(V('i0'), V('i1')), F(['b'], PR(V('b'), PR(V('y'), F(['z'], V('y'))))))
P3 = lambda a, b, c: ('pprod', a, P2(b, c))
old = [D('g', gy), (P3(PV('s'), 't', 'h'), A(V('g'), C(0))), D('e', ('match', A(V('h'), C(1)), [(P2('p', 'q'), C(1))])), D('w', F(['v'], V('i2')))]
seen = [(P3(PV('b3'), 'y3', 'h3'), A(V('gg'), C(7)))], [I(EQ, V('y3'), PR(V('o0'), V('o1')))]
case('lowest hit, left', ([], old + [(P3(P2('gg', 'ww'), 't2', 'h2'), A(V('g'), PR(V('g'), V('w'))))] + seen[0], seen[1]))
case('lowest hit, right', ([], old + [(P3(P2('ww', 'gg'), 't2', 'h2'), A(V('g'), PR(V('w'), V('g'))))] + seen[0], seen[1]))
case('lowest hit, list', ([], old + [(P3(PV('bb'), 't2', 'h2'), A(V('g'), lst(V('w'), V('g'), V('h'), V('g'))))],
     [A(V('fold'), V('bb'), F(['f', 'acc'], ('seq', [('match', A(V('f'), C(3)), [(PV('r'), U)]), PR(A(V('f'), C(2)), V('acc'))])), U)]))
# the innermost frame: the lost closure takes the split y by implicit_env, and is applied where g's own y is the old one
gi = L('y', PR(V('i0'), V('i1')), F(['b'], PR(A(V('b'), C(3)), PR(V('y'), F(['z'], V('y'))))))
inner = [D('g', gi), (P3(PV('s'), 't', 'h'), A(V('g'), F(['q'], V('q')))), D('e', ('match', A(V('h'), C(1)), [(P2('p', 'q'), C(1))]))]
case('innermost frame', ([], inner + [(P3(PV('y3'), 'y4', 'h4'), A(V('g'), V('h')))], [I(EQ, V('y3'), PR(V('o0'), V('o1'))), I(EQ, V('y4'), V('y3'))]))
case('innermost frame, nested', ([], inner + [(P3(PV('y3'), 'y4', 'h4'), A(V('g'), F(['u'], ('match', A(V('g'), V('h')), [(P3(PV('a'), 'c', 'd'), PR(V('a'), PR(V('c'), A(V('d'), V('u')))))]))))],
     [I(EQ, V('y3'), PR(PR(V('o0'), V('o1')), PR(V('y4'), V('y4'))))]))
# -- self application: implicit_env, keys present
case('implicit', ([], [D('p', A(F(['x', 's'], A(V('s'), F(['w'], PR(V('x'), V('w'))))), C(5))),
     D('p2', A(F(['x', 's'], V('s')), C(6)))], []))
case('implicit 2', ([], [D('p', A(F(['x', 's', 'k'], ('match', V('k'), [(('pconst', 0), F(['w'], V('x'))),
     (PV('m'), A(V('s'), F(['a', 'b'], A(V('s'), V('a'), V('b'))), I(SUB, V('m'), C(1))))])), C(5))),
     D('r', A(V('p'), V('p'), C(4))), D('q', A(V('r'), C(1)))], []))
# -- lists of closures captured again and again
def relist(n, m):
    """a list of n closures, passed m times through a let that captures"""
    mk = F(['x'], L('y', I(ADD, V('x'), C(1)), F(['z'], I(MUL, V('y'), V('z')))))
    l = N
    for j in range(n): l = CO(A(V('mk'), C(j)), l)
    defs = [D('mk', mk), D('l0', l)]
    for j in range(m):
        defs.append(D('l%d' % (j + 1), L('k', C(j), V('l%d' % j))))
    return [], defs, [A(V('fold'), V('l%d' % m), F(['e', 'acc'], ('seq', [I(EQ, A(V('e'), V('i0')), V('i1')), V('acc')])), U)]
case('relist 20 x 30', relist(20, 30))
case('relist 100 x 5', relist(100, 5))
case('relist 3 x 300', relist(3, 300))
# the list handed through a function: params expand it each time
def through(n, m):
    mk = F(['x'], L('y', I(ADD, V('x'), C(1)), F(['z'], I(MUL, V('y'), V('z')))))
    l = N
    for j in range(n): l = CO(A(V('mk'), C(j)), l)
    defs = [D('mk', mk), D('id', F(['q'], V('q'))), D('l', l), D('k', A(V('iter'), C(m), V('id'), V('l')))]
    return [], defs, [A(V('fold'), V('k'), F(['e', 'acc'], ('seq', [I(EQ, A(V('e'), V('i0')), V('i1')), V('acc')])), U)]
case('through 10 x 40', through(10, 40))
case('through 60 x 10', through(60, 10), 30)
case('through 2 x 118', through(2, 118))
# one closure captured thousands of times
def grow(n, rounds):
    wrap = F(['f'], L('k', C(1), L('m', V('k'), V('f'))))
    defs = [D('w', wrap), D('f0', F(['z'], V('i0')))]
    for j in range(rounds): defs.append(D('f%d' % (j + 1), A(V('iter'), C(n), V('w'), V('f%d' % j))))
    return [], defs, [I(EQ, A(V('f%d' % rounds), C(1)), V('o'))]
case('grow 60 x 6', grow(60, 6))
case('grow 60 x 30', grow(60, 30))
# pairs of pairs of closures, destructured and paired anew
def shuffle(n):
    defs = [D('a', L('k', C(1), F(['z'], I(ADD, V('k'), V('z'))))), D('b', L('k', C(2), F(['z'], I(ADD, V('k'), V('z'))))), D('t0', PR(V('a'), V('b')))]
    for j in range(n):
        v = ('match', V('t%d' % j), [(P2('x', 'y'), L('q', C(j), PR(V('y'), L('r', C(j), F(['z'], A(V('x'), V('z')))))))])
        defs.append(D('t%d' % (j + 1), v))
    return [], defs, [('match', V('t%d' % n), [(P2('x', 'y'), ('seq', [I(EQ, A(V('x'), V('i0')), C(1)), I(EQ, A(V('y'), V('i0')), C(2))]))])]
case('shuffle 5', shuffle(5)); case('shuffle 40', shuffle(40))
# tree doubling: many leaves, not bound (module expression) and bound
def double(n, bound):
    defs = [D('t0', L('k', C(1), F(['z'], V('k'))))]
    for j in range(n): defs.append(D('t%d' % (j + 1), PR(V('t%d' % j), V('t%d' % j))))
    e = V('t%d' % n)
    for _ in range(8): e = PR(V('t%d' % n), e)
    return [], defs + ([D('all', e)] if bound else []), [e, L('x', C(1), C(2)), L('x', U, e)]
case('double 8 bound', double(8, True)); case('double 11', double(11, False)); case('double 12', double(12, False))
# wide patterns
def wide(n):
    p, v = PV('a0'), A(V('mk'), C(0))
    for j in range(1, n):
        p = ('pas', ('pprod', PV('a%d' % j), p), 'b%d' % j)
        v = PR(A(V('mk'), C(j)), v)
    mk = F(['x'], L('y', I(ADD, V('x'), V('i0')), F(['z'], I(MUL, V('y'), V('z')))))
    uses = [I(EQ, A(V('a%d' % j), C(3)), V('o')) for j in range(0, n, 3)]
    f = F([p], ('seq', uses + [PR(V('a0'), V('b%d' % (n - 1)))]))
    return [], [D('mk', mk), D('v', v), D('f', f), D('r', A(V('f'), V('v'))), (p, V('v'))], [('match', V('v'), [(p, ('seq', uses + [U]))])]
case('wide 30', wide(30)); case('wide 100', wide(100))
# doubled matches, nested
def doubled(n):
    e = L('y', I(ADD, V('i0'), V('i1')), PR(F(['z'], I(MUL, V('y'), V('z'))), V('y')))
    for j in range(n): e = ('match', e, [(P2('a', 'b'), PR(L('k', V('b'), F(['z'], A(V('a'), V('k')))), V('b')))])
    return [], [(P2('f', 'n'), e)], [I(EQ, A(V('f'), C(3)), V('n'))]
case('doubled 6', doubled(6)); case('doubled 9', doubled(9))
# fresh on closures and pairs, split prover variables
case('fresh', ([], [D('f', A(V('fresh'), PR(F(['z'], V('i0')), PR(I(ADD, V('i0'), C(1)), U)))), D('l', A(V('fresh'), lst(C(1), V('i0'), F(['q'], V('q')))))],
     [I(EQ, V('i1'), C(1)), ('match', A(V('fresh'), V('i3')), [(P2('p', 'q'), I(EQ, V('p'), V('q')))])]), 16)
case('fresh over split', ([], [D('e', ('match', V('s0'), [(P2('p', 'q'), C(1))])), D('f', A(V('fresh'), PR(V('s0'), V('s1')))),
     D('h', ('match', V('s1'), [(P2('p', 'q'), V('q'))])), D('f2', A(V('fresh'), PR(V('s0'), V('s1'))))], []))
case('fresh, value splits between', ([], [D('k', F(['v'], ('seq', [('match', V('s1'), [(P2('p', 'q'), U)]), A(V('fresh'), V('v'))]))), D('r', A(V('k'), PR(V('s1'), F(['z'], V('s1')))))], []))
# fold elements that are pairs of closures, fold result a closure, fold of fold
mk = F(['x'], L('y', I(ADD, V('x'), C(1)), F(['z'], I(MUL, V('y'), V('z')))))
el = lambda j: PR(A(V('mk'), C(j)), PR(C(j), A(V('mk'), V('i0'))))
case('fold pairs', ([], [D('mk', mk), D('l', lst(el(1), el(2), el(3))),
     D('r', A(V('fold'), V('l'), F([('pprod', PV('a'), P2('b', 'c')), 'acc'], PR(A(V('a'), V('b')), PR(V('c'), V('acc')))), F(['w'], V('w')))),
     D('ff', A(V('fold'), V('l'))), D('fl', A(V('fold'), lst(V('ff'), V('ff')), F(['e', 'acc'], CO(V('e'), V('acc'))), N)),
     D('g', A(V('ff'), F(['e', 'acc'], PR(V('e'), V('acc'))))), D('h', L('k', C(4), V('g'))), D('o', A(V('h'), V('h')))], []))
# the refresh of embedded elements: functions with lets and matches in them
case('fold embedded', ([], [D('f', F(['a'], L('b', V('a'), ('match', PR(V('b'), C(1)), [(P2('c', 'd'), ('seq', [I(EQ, V('c'), V('d')), F(['q'], PR(V('q'), V('b')))]))])))),
     D('l', lst(L('k', C(3), V('f')), V('f'), F(['a'], V('a')))),
     D('r', A(V('fold'), V('l'), F(['e', 'acc'], PR(A(V('e'), V('i0')), V('acc'))), C(0)))], []))
# depth: 256 and 257 levels
def levels(n):
    e = V('i0')
    for _ in range(n - 1): e = ('neg', e)
    return [], [], [e]
case('levels 256', levels(256)); case('levels 257', levels(257), 19)
def lists(n):
    e = N
    for j in range(n): e = CO(F(['z'], V('i0')), e)
    return [], [], [e]
case('list 255', lists(255)); case('list 256', lists(256), 19)
def apps(n):
    e = V('i0')
    for _ in range(n): e = A(F(['x'], V('x')), e)
    return [], [], [e]
for n in (84, 85, 86, 126, 127, 128, 253, 254, 255, 256): case('apps %d' % n, apps(n), 19 if n > 254 else 0)
def bodies(n):
    defs = [D('f0', F(['x'], V('x')))]
    for j in range(n): defs.append(D('f%d' % (j + 1), F(['x'], A(V('f%d' % j), V('x')))))
    return [], defs, [A(V('f%d' % n), F(['q'], V('i0')))]
for n in (126, 127, 128, 200): case('bodies %d' % n, bodies(n), 19 if n > 126 else 0)
case('let chain 330', ([], [], [reduce(lambda b, j: L('a%d' % j, F(['z'], V('i0')), b), range(330), PR(V('a3'), V('a7')))]))
for n in (-129, -128, -1, 0, 127, 128): case('iter %d' % n, ([], [], [A(V('iter'), C(n), F(['x'], V('x')), V('i0'))]), 0 if -129 < n < 128 else 14)
# application of a pair of functions: 30, 32 before 10
case('apply pair', ([], [D('p', PR(F(['x', ('pas', PV('y'), 'w')], V('x')), F([P2('x', 'y')], V('x'))))], [A(V('p'), C(1))]), 10)
# module redefinitions capturing the same closures: every definition wraps the last
def redefine(n):
    defs = [D('f', F(['z'], V('z')))]
    for j in range(n): defs.append(D('f', L('k', V('f'), F(['z'], A(V('k'), I(ADD, V('z'), C(j)))))))
    return [], defs, [I(EQ, A(V('f'), V('i0')), V('o'))]
case('redefine 30', redefine(30)); case('redefine 100', redefine(100))
def redef_pair(n):
    defs = [D('f', F(['z'], V('z'))), D('l', N)]
    for j in range(n):
        defs.append(D('f', L('k', V('f'), F(['z'], A(V('k'), V('z'))))))
        defs.append(D('l', CO(V('f'), V('l'))))
    return [], defs, [A(V('fold'), V('l'), F(['e', 'acc'], A(V('e'), V('acc'))), V('i0'))]
case('redef list 30', redef_pair(30)); case('redef list 100', redef_pair(100), 31)
# deep left nesting by expression and by bind
def leftnest(n, step):
    defs = [D('t0', F(['z'], V('i0')))]
    for j in range(n):
        e = V('t%d' % j)
        for q in range(step): e = PR(e, C(q))
        defs.append(D('t%d' % (j + 1), e))
    return [], defs, [L('x', C(1), V('t%d' % n))]
case('left nest', leftnest(4, 220)); case('left nest 2', leftnest(9, 100), 31)
def rightnest(n, step):
    defs = [D('t0', N)]
    for j in range(n):
        e = V('t%d' % j)
        for q in range(step): e = CO(F(['z'], V('i0')) if q % 50 == 0 else C(q), e)
        defs.append(D('t%d' % (j + 1), e))
    return [], defs, [L('x', C(1), V('t%d' % n)), A(V('fold'), V('t1'), F(['e', 'a'], V('a')), C(0))]
case('right nest', rightnest(4, 220)); case('right nest 2', rightnest(9, 80))


def chain_module(n):
    step = F(['s'], ('match', V('s'), [(P2('q', 'l'), L('y', V('l'), PR(V('q'), F(['b'], F(['z'], V('y'))))))]))
    step2 = F(['s'], A(F(['r'], ('match', V('r'), [(P2('q', 'p'), PR(V('q'), A(V('p'), C(0), C(0))))])), A(V('step'), V('s'))))
    q = F(['u'], ('match', V('u'), [(('pconst', 5), C(77)), (PV('x'), C(88))]))
    defs = [D('step', step), D('step2', step2), D('s', PR(q, C(5)))]
    while n > 0:
        k = min(n, 127)
        defs.append((P2('q', 'l'), A(V('iter'), C(k), V('step2'), V('s'))))
        defs.append(D('s', PR(V('q'), V('l'))))
        n -= k
    return [], defs, [I(EQ, A(V('q'), V('l')), V('out'))]
for n in (5, 255, 256, 257): case('chain %d' % n, chain_module(n), 19 if n > 256 else 0)


# -- near the limits
def many_ids(n, k, extra):
    p = PV('x')
    for j in range(n): p = ('pas', p, 'a')
    return [], [D('f', F(['q', p], V('i0')))] + [D('x', A(V('f'), C(1))) for _ in range(k)] + extra, []
case('ids 32', many_ids(1500, 43, []), 32)
case('ids 32 before 30', many_ids(600, 110, []), 32)  # in the 108th application; 30 would come in the 109th
case('ids ok', many_ids(1500, 42, []))
g2 = F(['q', ('pas', ('pas', PV('r'), 'a'), 'b')], V('q'))
T40 = [D('t', lst(*[C(1)] * 40))]
for e in (9, 10, 11):
    case('ids 32 in expand %d' % e, many_ids(1500, 42, T40 + [D('y', V('t')) for _ in range(e)]), 32 if e > 10 else 0)
for e in (3, 5, 6, 7, 8, 9, 30):
    case('ids 32 in infix %d' % e, many_ids(1500, 42, T40 + [D('y', V('t'))] * 10 + [D('y', I(ADD, V('i0'), V('i1')))] * e), 32)
for e in (1, 2, 3, 4, 5):
    case('ids 32 in split %d' % e, many_ids(1500, 42, T40 + [D('y', V('t'))] * 10 + [D('y', ('match', V('s%d' % j), [(P2('u', 'v'), C(1))])) for j in range(e)]), 32 if e > 1 else 0)
case('ids 32 late', many_ids(1516, 42, [D('g', g2)] + [D('y', A(V('g'), C(1))) for _ in range(42)]), 32)
case('ids 32 in expand', many_ids(1480, 42, T40 + [D('y', V('t')) for _ in range(21)]), 32)
def big_lets(n, m, ret):
    """m lets open at once, each of a list of n numbers"""
    l = N
    for j in range(n): l = CO(V('i0'), l)
    b = ret
    for j in range(m): b = L('a%d' % j, V('t'), b)
    return [], [D('t', l), D('r', b)], []
case('lets 120 x 20', big_lets(120, 20, V('i1')))
case('lets captured', big_lets(120, 16, F(['z'], V('a3'))))
case('lets captured 2', big_lets(240, 14, PR(F(['z'], V('a3')), F(['z'], V('a4')))))
def provers(n, m):
    l = N
    for j in range(n): l = CO(V('i%d' % j), l)
    return [], [D('t', l)] + [D('f', A(V('fresh'), V('t'))) for _ in range(m)], []
case('provers 31', provers(200, 12), 31); case('provers ok', provers(150, 6))
def defs31(n):
    return [], [D('f', F(['x'], I(MUL, V('x'), V('x'))))] + [D('y', A(V('iter'), C(120), V('f'), V('i0'))) for _ in range(n)], []
case('defs 31', defs31(40), 31); case('defs 16', defs31(16)); case('defs 17', defs31(17), 31)
def power31(n):
    return [], [D('y', I(EXP, V('i0'), C(2 ** 30 - 1))) for _ in range(n)], []
case('power 31', power31(90), 31); case('power ok', power31(60))
def negs(n):
    return [], [D('x0', ('neg', V('i0')))] + [D('x%d' % (j + 1), ('neg', V('x%d' % j))) for j in range(n)], []
case('negs 178', negs(178)); case('negs 181', negs(181), 31)
def env_big(n, k):
    """a closure with an environment of thousands, applied k times, inside frames"""
    l = N
    for j in range(n): l = CO(V('i0'), l)
    b = F(['s', 'k'], ('match', V('k'), [(('pconst', 0), F(['w'], PR(V('a0'), V('w')))), (PV('m'), A(V('s'), V('s'), I(SUB, V('m'), C(1))))]))
    for j in range(6): b = L('a%d' % j, V('t'), b)
    return [], [D('t', l), D('p', b), D('q', A(V('p'), V('p'), C(k)))], []
case('env 600 x 8', env_big(100, 8)); case('env 1200 x 4', env_big(100, 4))


# -- deep recursion of the walks
def fold_nest(n, m):
    step = F(['f'], A(V('fold'), CO(V('f'), N)))
    defs = [D('f', F(['z'], V('z'))), D('st', step)]
    for j in range(m): defs.append(D('f', A(V('iter'), C(n), V('st'), V('f'))))
    return [], defs, [A(V('f'), F(['e', 'acc'], V('acc')), C(3))]
case('fold nest 100', fold_nest(100, 1)); case('fold nest 1200', fold_nest(120, 10)); case('fold nest 2400', fold_nest(120, 20), 30)
def left_clo(n, step):
    defs = [D('t0', L('k', C(1), F(['z'], V('k'))))]
    for j in range(n):
        e = V('t%d' % j)
        for q in range(step): e = PR(e, V('t0'))
        defs.append(D('t%d' % (j + 1), L('x', U, e)))
    return [], defs, []
case('left closures 3 x 200', left_clo(3, 200)); case('left closures 6 x 100', left_clo(6, 100))
def right_clo(n, step):
    defs = [D('t0', L('k', C(1), F(['z'], V('k'))))]
    for j in range(n):
        e = V('t%d' % j)
        for q in range(step): e = PR(V('t0'), e)
        defs.append(D('t%d' % (j + 1), L('x', U, e)))
    return [], defs, []
case('right closures 4 x 200', right_clo(4, 200)); case('right closures 10 x 80', right_clo(10, 80))
def left_units(n, step, left):
    """the largest depth of a bound value: no flat node is spent on units"""
    defs = [D('g', F(['x'], reduce(lambda e, _: PR(e, U) if left else PR(U, e), range(step), V('x')))), D('t', U)]
    for j in range(n): defs.append(D('t', A(V('g'), V('t'))))
    return [], defs, []
case('left units', left_units(8, 240, True), 30); case('right units', left_units(8, 240, False), 30)
case('left units 11', left_units(11, 240, True), 30); case('right units 11', left_units(11, 240, False), 30)
case('left units 12', left_units(12, 240, True), 30)
def left_pat(n):
    p, v = PV('a'), V('i0')
    for _ in range(n): p, v = ('pprod', p, PV('b')), PR(v, V('i1'))
    return [], [D('f', F([p], V('a'))), D('r', A(V('f'), v))], []
case('left pattern 200', left_pat(200))
def left_infix(n):
    e = V('x')
    for _ in range(n): e = I(ADD, e, V('x'))
    return [], [D('f', F(['x'], F(['y'], e))), D('r', A(V('f'), C(1)))], []
case('left infix 900', left_infix(900))


def chain_as(n, pat):
    pubs, defs, exprs = chain_module(n)
    q = F(['u'], ('match', V('u'), [(pat, C(77))]))
    defs[2] = D('s', PR(q, V('free')))
    return pubs, defs, exprs
for n in (3, 254, 255, 256):
    case('chain as split %d' % n, chain_as(n, ('pas', P2('x', 'y'), 'w')), 19 if n > 255 else 16)
    case('chain split %d' % n, chain_as(n, P2('x', 'y')), 19 if n > 255 else 16)
case('fold pairs applied', ([], [D('mk', mk), D('l', lst(el(1), el(2), el(3)))],
     [A(V('fold'), V('l'), F([('pprod', PV('a'), P2('b', 'c')), 'acc'], ('seq', [I(EQ, A(V('a'), V('i0')), C(1)), I(EQ, A(V('c'), V('i1')), V('b')), V('acc')])), U)]))
case('fold lists applied', ([], [D('mk', mk), D('l', lst(lst(A(V('mk'), C(1)), A(V('mk'), V('i0'))), lst(V('mk'), A(V('mk'), C(4))), N))],
     [A(V('fold'), V('l'), F(['e', 'acc'], ('seq', [A(V('fold'), V('e'), F(['f', 'b'], A(V('f'), V('b'))), V('i2')), V('acc')])), U)]))
case('fresh closures applied', ([], [D('mk', mk), D('q', PR(A(V('mk'), C(1)), PR(A(V('mk'), V('i0')), A(V('mk'), C(3))))),
     (('pprod', PV('a'), P2('b', 'c')), A(F(['v'], L('k', C(2), A(V('fresh'), V('v')))), V('q')))], [I(EQ, V('a'), V('i0'))]))
# both limits are passed by one refresh, which counts its nodes first
case('ids 30 before 32', many_ids(500, 130, []), 30)
