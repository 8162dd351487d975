# compare_decks.py SEED COUNT: is a circuit a domino deck of a network within bounds and on so many clocks? By the definition, whose trees, levels,
# signs and ends are looked for by enumeration, and by the rules, which read the cards of its text. Decks are those of synthesis, of
# random trees, and either of them changed in one place.
import random, sys, time
from collections import Counter
from functools import lru_cache
import definitions as D
import rules as R
from make_networks import draw_network


# ---- the definition's side

@lru_cache(maxsize=None)
def shapes(m):
    if m == 1:
        return (('leaf', None),)
    return tuple((op, l, r) for i in range(1, m) for op in ('series', 'parallel') for l in shapes(i) for r in shapes(m - i))


def fill(shape, gates):
    if shape[0] == 'leaf':
        return ('leaf', gates.pop(0))
    l = fill(shape[1], gates)
    return (shape[0], l, fill(shape[2], gates))


def cells_at(named, i, k, pins, lc):
    # all (tree over gates, next place) such that cell k on some clock stands at place i
    if i >= len(named):
        return
    for clock in range(1, 5):
        for m in range(1, 7):
            here = named[i:i + m + 5]
            if len(here) < m + 5 or here[0] != ('pch', 'd%d' % k, 'ck%d' % clock, 'vdd'):
                break
            names = [x[2] for x in here[2:2 + m]]
            gates = []
            for name in names:
                fits = [g for g in range(2 * lc + 10) if D.named_gate(pins, lc, g) == name]
                gates.append(fits)
            if not all(gates):
                continue
            for shape in shapes(m):
                tree = fill(shape, list(names))
                if D.cell(clock, k, tree) == here:
                    yield fill(shape, [g[0] for g in gates]), i + m + 5


def all_trees(named, i, k, pins, lc):
    yield []
    for tree, j in cells_at(named, i, k, pins, lc):
        for more in all_trees(named, j, k + 1, pins, lc):
            yield [tree] + more


def is_domino_deck(net, w, h, phases, circuit, named):
    pins, outs, lc = D.pins_of(net), D.outs_of(net), D.leaf_count(net)
    sinks = len(outs) + len(net.latches)
    signs = [s for x, s in circuit['phases']]
    for trees in all_trees(named, 0, 0, pins, lc):
        try:
            levels = D.levels_of(lc, trees)
        except (IndexError, AssertionError):
            continue
        every = [('fixed', b) for b in (False, True)] + [('ofleaf', l, s) for l in range(lc) for s in (True, False)] + [
            (x, k) for x in ('ofdynamic', 'ofoutput') for k in range(len(trees))]
        tail = named[len(named) - 2 * sinks:]
        if len(tail) < 2 * sinks:
            continue
        per = [[e for e in every if D.sink_gate(pins, e) == tail[2 * i][2]] for i in range(sinks)]
        if not all(per):
            continue
        ends = [p[0] for p in per]
        assert all(len(p) == 1 for p in per)
        if D.is_domino_deck_by(net, w, h, phases, circuit, trees, levels, signs, ends):
            return True
    return False


# ---- the rules' side, over the text

class No(Exception):
    pass


def need(x):
    if not x:
        raise No


def by_rules(net, w, h, phases, text):
    try:
        walk(net, w, h, phases, text)
        return True
    except No:
        return False


def walk(net, w, h, phases, text):
    need(1 <= phases <= 4)
    lines = text.split('\n')
    marks = [l.split() for l in lines if l.startswith('* phase ')]
    rest = [l for l in lines if not l.startswith('*') and l]
    words = []
    while rest and (not words or rest[0].startswith('+')):
        words += rest.pop(0).split()
        words = [x for x in words if x != '+']
    need(words[0] == '.subckt' and rest.pop() == '.ends ' + words[1])
    outs = ['o_' + R.esc(net.names[s]) for s in net.outputs]
    pins = ['i_' + R.esc(net.names[s]) for s in range(net.inputs)]
    need(words[1] == R.esc(net.name))
    need(words[2:] == ['vdd', 'vss'] + ['ck1', 'ck2', 'ck3', 'ck4'][:phases] + 'lm lmb ls lsb rs rsb'.split() + pins + outs)
    sinks = outs + ['x%d' % j for j in range(len(net.latches))]
    need([m[2] for m in marks] == sinks and all(m[3] in '+-' for m in marks))
    cards = [tuple(l.split()[1:4]) + (l.split()[5],) for l in rest]
    own = pins + ['q%d' % j for j in range(len(net.latches))]
    pos = 0

    def eat(*want):
        nonlocal pos
        need(pos < len(cards) and cards[pos] == want)
        pos += 1
    minus, level, clock = set(), [], []
    while pos < len(cards) and cards[pos][0] == 'd%d' % len(level):
        k = len(level)
        ck = cards[pos][1]
        need(ck in ('ck1', 'ck2', 'ck3', 'ck4')[:phases])
        eat('d%d' % k, ck, 'vdd', 'pch')
        eat('d%d' % k, 'z%d' % k, 'vdd', 'pkeep')
        inner, below = 0, [0]

        def leaf(name):
            if name in own:
                return
            if name[0] == 'c' and name[1:].isdigit() and name == 'c%d' % int(name[1:]) and int(name[1:]) < len(own):
                minus.add(int(name[1:]))
                return
            need(name[0] == 'z' and name[1:].isdigit() and name == 'z%d' % int(name[1:]) and int(name[1:]) < k)
            below.append(level[int(name[1:])])

        def side_by_side(top, bottom):
            # one part or more between the same nets: (height, width)
            nonlocal pos, inner
            hh, ww = 0, 0
            while pos < len(cards) and cards[pos][0] == top and cards[pos][3] == 'nch':
                if cards[pos][2] == bottom:
                    leaf(cards[pos][1])
                    pos += 1
                    a, b = 1, 1
                else:
                    mid = 't%d_%d' % (k, inner)
                    inner += 1
                    need(inner < 40)
                    a1, b1 = side_by_side(top, mid)
                    a2, b2 = side_by_side(mid, bottom)
                    a, b = a1 + a2, max(b1, b2)
                hh, ww = max(hh, a), ww + b
            need(ww > 0)
            return hh, ww
        hh, ww = side_by_side('d%d' % k, 'f%d' % k)
        need(hh <= h and ww <= w)
        eat('f%d' % k, ck, 'vss', 'nch')
        eat('z%d' % k, 'd%d' % k, 'vdd', 'pch')
        eat('z%d' % k, 'd%d' % k, 'vss', 'nch')
        level.append(1 + max(below))
        clock.append(int(ck[2:]))
    top = max(level, default=0)
    need(all(c == 1 + ((l - 1) * phases) // top for c, l in zip(clock, level)))
    gates = []
    tail = cards[len(cards) - 2 * len(sinks):] if sinks else []
    need(len(tail) == 2 * len(sinks))
    for i, s in enumerate(sinks):
        g = tail[2 * i][1]
        need(tail[2 * i] == (s, g, 'vdd', 'pch') and tail[2 * i + 1] == (s, g, 'vss', 'nch'))
        gates.append(g)
        sign = marks[i][3]
        cells = range(len(level))
        if g in ['d%d' % k for k in cells]:
            need(sign == '+')
        elif g in ['z%d' % k for k in cells]:
            need(sign == '-')
        elif g in ['c%d' % p for p in range(len(own))]:
            minus.add(int(g[1:]))
        else:
            need(g in own or g in ('vdd', 'vss'))
    for p in sorted(minus):
        eat('c%d' % p, own[p], 'vdd', 'pch')
        eat('c%d' % p, own[p], 'vss', 'nch')
    for j, (s, init) in enumerate(net.latches):
        for out, data, a, b in (('m%d' % j, 'x%d' % j, 'lmb', 'lm'), ('q%d' % j, 'm%d' % j, 'lsb', 'ls')):
            eat(out, a, out + 'p', 'pch')
            eat(out + 'p', data, 'vdd', 'pch')
            eat(out, b, out + 'n', 'nch')
            eat(out + 'n', data, 'vss', 'nch')
        eat(*(('q%d' % j, 'rsb', 'vdd', 'pch') if init else ('q%d' % j, 'rs', 'vss', 'nch')))
    need(pos == len(cards) - len(tail))


# ---- cases

def random_tree(r, gates, m):
    if m == 1:
        return ('leaf', r.choice(gates))
    i = r.randint(1, m - 1)
    return (r.choice(['series', 'parallel']), random_tree(r, gates, i), random_tree(r, gates, m - i))


def change(r, named, marks, phases):
    named, marks = list(named), list(marks)
    way = r.choice(['none', 'none', 'device', 'device', 'swap', 'drop', 'double', 'sign', 'clock', 'cell', 'sinkgate', 'complement', 'init', 'mark'])
    if way == 'sign' and marks:
        i = r.randrange(len(marks))
        marks[i] = (marks[i][0], not marks[i][1])
    elif way == 'mark' and marks:
        i = r.randrange(len(marks))
        marks[i] = (r.choice(['x0', 'o_a', 'o_f', 'd0']), marks[i][1])
    elif named and way != 'none':
        nets = sorted({n for x in named for n in x[1:]})
        i = r.randrange(len(named))
        if way == 'device':
            x = list(named[i])
            f = r.randrange(4)
            x[f] = r.choice(['nch', 'pch', 'pkeep']) if f == 0 else r.choice(nets + ['t0_0', 'c0', 'z0', 'd0', 'ck1', 'ck2', 'q0'])
            named[i] = tuple(x)
        elif way == 'swap':
            j = r.choice([i - 1, r.randrange(len(named))])
            named[i], named[j] = named[j], named[i]
        elif way == 'drop':
            del named[i]
        elif way == 'double':
            named.insert(i, named[i])
        elif way == 'clock':
            c = r.choice(['ck1', 'ck2', 'ck3'])
            old = r.choice(['ck1', 'ck2', 'ck3'])
            named = [x if x[2] != old else x[:2] + (c,) + x[3:] for x in named]
        elif way == 'cell':
            a, b = r.choice([('z0', 'z1'), ('z1', 'z0'), ('z0', 'z2'), ('c0', 'c1'), ('c0', 'i_a')])
            named = [x[:2] + (b if x[2] == a else x[2],) + x[3:] for x in named]
        elif way == 'sinkgate':
            at = [j for j in range(len(named) - 1) if named[j][1] == named[j + 1][1] and named[j][1][:2] in ('o_', 'x0', 'x1')]
            if at:
                j = r.choice(at)
                g = r.choice(['d0', 'z0', 'd1', 'z1', 'c0', 'c1', 'q0', 'vdd', 'vss'] + nets)
                named[j], named[j + 1] = named[j][:2] + (g, named[j][3]), named[j + 1][:2] + (g, named[j + 1][3])
        elif way == 'complement':
            at = [j for j in range(len(named) - 1) if named[j][1] == named[j + 1][1] and named[j][1][0] == 'c']
            if at and r.random() < 0.5:
                j = r.choice(at)
                del named[j:j + 2]
            else:
                at = [j for j in range(len(named)) if named[j][1][0] in 'cmxo'] or [0]
                named[at[0]:at[0]] = D.inverter('vdd', 'vss', r.choice(['q0', 'i_a', 'i_b'] + nets), r.choice(['c0', 'c1', 'c2']))
        elif way == 'init':
            named = [('pch', x[1], 'rsb', 'vdd') if x[2] == 'rs' else x for x in named]
    return named, marks, way


def main(seed, count):
    r = random.Random(seed)
    n = Counter()
    for _ in range(count):
        net = draw_network(r, 3, 2, 5, 3, 3)
        w, h, phases = r.choice([(2, 2), (4, 4), (3, 2), (2, 3)]) + (r.randint(1, 4),)
        pins, outs, lc = D.pins_of(net), D.outs_of(net), D.leaf_count(net)
        starts = [i for s, i in net.latches]
        sinks = D.sink_nets(outs, starts)
        if r.random() < 0.5:
            deck = R.Deck(net, w, h, phases)
            named = [(c.split()[4],) + tuple(c.split()[:3]) for c in deck.cards]
            marks = [(x, bool(s)) for x, s in zip(sinks, deck.signs)]
            source = 'synthesis'
        else:
            trees = []
            for k in range(r.randint(0, 3)):
                top = 2 * lc + k + (1 if r.random() < 0.04 else 0)
                if top == 0:
                    break
                trees.append(random_tree(r, range(top), r.choice([1, 2, 2, 3, 4, 5])))
            signs = [r.random() < 0.6 for x in sinks]
            ends = []
            for s in signs:
                e = r.choice([('fixed', True), ('fixed', False)] + [('ofleaf', r.randrange(max(1, lc)), r.random() < 0.5)] * 2 * (lc > 0)
                             + [('ofdynamic' if s or r.random() < 0.05 else 'ofoutput', r.randrange(max(1, len(trees))))] * 3 * (len(trees) > 0))
                ends.append(e)
            try:
                levels = D.levels_of(lc, trees)
            except IndexError:
                levels = [1] * len(trees)
            cells = [(t, D.clock_of(phases, D.greatest(levels), l)) for t, l in zip(trees, levels)]
            comps = [l for l in range(lc) if any(D.reads(2 * l + 1, t) for t, c in cells) or any(e == ('ofleaf', l, True) for e in ends)]
            named = D.named_devices(pins, outs, starts, cells, comps, ends)
            marks = list(zip(sinks, signs))
            source = 'random trees'
        inside = Counter(x[3].split('_')[0] if x[3][0] == 't' else x[3] for x in named if x[0] == 'nch' and x[1][0] in 'dt')
        if sum(inside.values()) > 5 and max(sum(1 for x in named if x[0] == 'nch' and x[1][:len(d)] in (d, 't' + d[1:]) and x[1][len(d):][:1] in ('', '_'))
                                            for d in {x[1] for x in named if x[1][0] == 'd'}) > 5:
            continue                        # trees of more leaves aren't enumerated
        named, marks, way = change(r, named, marks, phases)
        name = D.escaped(net.name) if r.random() < 0.98 else 'other'
        asked = (w, h, phases) if r.random() < 0.9 else (r.randint(2, 4), r.randint(2, 4), r.randint(1, 4))
        circuit = D.with_devices(D.new_circuit(name, marks, phases, pins, outs), named)
        a = is_domino_deck(net, *asked, circuit, named)
        b = by_rules(net, *asked, D.written(circuit))
        if a != b:
            print('DIFFERS domino deck', net, asked, source, way, a, b, D.written(circuit), flush=True)
        n['decks'] += 1
        n[('yes: ' if a else 'no: ') + source + (', unchanged' if way == 'none' else ', changed')] += 1
    return n


if __name__ == '__main__':
    begun = time.process_time()
    n = main(int(sys.argv[1]), int(sys.argv[2]))
    print('decks seed', sys.argv[1], dict(n), '%.0f s' % (time.process_time() - begun), flush=True)
