# compare_networks.py SEED COUNT: gates, needed pairs, signs, forests, plans and texts of random networks, by the definitions and by the rules.
import random, sys, time
import definitions as D
import rules as R
from make_networks import draw_network
from collections import Counter


def differs(what, net, *more):
    print('DIFFERS', what, net, *more, flush=True)


def refs(r):
    return ('const', bool(r[1])) if r[0] == 'c' else ('leaf', r[1]) if r[0] == 'l' else ('node', r[1])


def arm(side):
    return ('lit', side[1], bool(side[2])) if side[0] == 'lit' else ('pair', side[1])


def end(e):
    return ('const', bool(e[1])) if e[0] == 'c' else ('lit', e[1], bool(e[2])) if e[0] == 'lit' else ({'d': 'dynamic', 'z': 'output'}[e[0]], e[1])


def main(seed, count):
    r = random.Random(seed)
    n = Counter()
    for _ in range(count):
        net = draw_network(r, level_order=r.random() < 0.7)
        g = D.gates_of(net)
        b = R.Builder(net)
        if g['nodes'] != [(x[0],) + tuple(refs(p) for p in x[1:]) for x in b.nodes] or g['sinks'] != [refs(s) for s in b.sinks] \
                or g['leaves'] != b.leaves or not D.are_in_place(g):
            differs('gates', net, g, b.nodes, b.sinks)
            continue
        n['networks'] += 1
        # values: each sink has its signal's, for all (or 16 of the) leaf values
        lc = g['leaves']
        vectors = range(1 << lc) if lc <= 4 else [r.randrange(1 << lc) for _ in range(16)]
        leafs = [[bool(v >> i & 1) for i in range(lc)] for v in vectors]
        sig = [R.signal_bits(net, leaf) for leaf in leafs]
        nodes = [D.node_values(g, leaf) for leaf in leafs]
        for leaf, s, nv in zip(leafs, sig, nodes):
            if [bool(D.ref_value(leaf, nv, x)) for x in g['sinks']] != [bool(s[x]) for x in D.sink_signals(net)]:
                differs('values', net, leaf)
            n['valuations'] += 1
        sinks = len(g['sinks'])
        gates = [i for i, x in enumerate(g['nodes']) if x[0] != 'not']
        # needed pairs by all sets, by all sign vectors
        terms = R.Terms(net)
        all_signs = [tuple(bool(v >> i & 1) for i in range(sinks)) for v in range(1 << sinks)] if sinks <= 4 else [
            tuple(r.random() < 0.5 for _ in range(sinks)) for _ in range(8)]
        for signs in all_signs:
            d = D.needed(g, signs)
            if len(gates) <= 4 and D.needed_by_all_sets(g, signs) != d:
                differs('all sets', net, signs)
            if {(p, bool(s)) for p, s in R.needed(b, [int(s) for s in signs])} != set(d) or terms.pairs(signs) != len(d):
                differs('needed', net, signs, d, terms.pairs(signs))
            n['needed'] += 1
        # chosen signs; all candidates of a turn where there are few
        size = D.Sizes(g)
        every = (lambda before, k: all_signs) if sinks <= 3 else None
        chosen = D.chosen_signs(size, sinks, every)
        if chosen != {tuple(bool(s) for s in R.choose_signs(b))}:
            differs('signs', net, chosen, R.choose_signs(b))
            continue
        signs = chosen.copy().pop()
        if not D.are_settled(size, signs) or size(signs) > size((True,) * sinks):
            differs('settled', net, signs)
        n['signs'] += 1
        if signs != (True,) * sinks:
            n['some minus'] += 1
        # forests of the chosen signs and of two others
        for which in {signs, r.choice(all_signs), (True,) * sinks}:
            f = D.forest_of(g, which)
            order, pairs, uses, ends = R.forest(b, [int(s) for s in which])
            if f['origin'] != [(p, bool(s)) for p, s in order] or f['pairs'] != [(w, arm(x), arm(y)) for w, x, y in pairs] \
                    or f['uses'] != [len(uses[i]) for i in range(len(pairs))] or f['ends'] != [end(e) for e in ends] \
                    or {p for p in range(len(pairs)) if D.is_free(f, p)} != R.free_places(uses):
                differs('forest', net, which, f, order, pairs, uses, ends)
                continue
            for leaf, nv, s in zip(leafs, nodes, sig):
                pv = D.pair_values(f, leaf)
                if any(pv[i] != (nv[p] == q) for i, (p, q) in enumerate(f['origin'])) or any(
                        bool(D.end_bit(leaf, pv, e)) != bool(s[x]) for e, x in zip(f['ends'], D.sink_signals(net))):
                    differs('pair values', net, which, leaf)
            n['forests'] += 1
            if len(R.free_places(uses)) > 7:
                n['too many free edges'] += 1
                continue
            bounds = [(r.randint(2, 8), r.randint(2, 6)) for _ in range(2)] + [(2, 2), (r.randint(2, 3), r.randint(2, 4))]
            for w, h in set(bounds):
                compare_plans(n, net, f, pairs, uses, w, h)
        # the whole text
        w, h, phases = r.choice([(2, 2), (4, 4), (r.randint(2, 8), r.randint(2, 6))]) + (r.randint(1, 4),)
        f = D.forest_of(g, signs)
        if len([1 for p in range(len(f['pairs'])) if D.is_free(f, p)]) <= 7:
            decks = D.chosen_deck(net, w, h, phases, True)
            if len(decks) != 1:
                differs('decks', net, w, h, phases, len(decks))
                continue
            circuit, trees, levels, sg, ends = decks[0]
            text = D.written(circuit)
            for by_plans in (False, True):
                other = R.Deck(net, w, h, phases, by_plans).text
                if text != other:
                    differs('text', net, w, h, phases, text, other)
            if not D.is_domino_deck_by(net, w, h, phases, circuit, trees, levels, sg, ends):
                differs('domino deck', net, w, h, phases)
            n['texts'] += 1
            if len(set(levels)) > 1 and phases > 1:
                n['texts of several clocks'] += 1
    return n


def compare_plans(n, net, f, pairs, uses, w, h):
    plans, chosen, parts = D.chosen_plans(f, w, h)
    n['plans looked at'] += len(plans)
    least = min(c for k, c in plans)
    kept, total = R.cover_by_plans(pairs, uses, w, h)
    tables = R.cover(pairs, uses, w, h)
    if len(chosen) != 1 or {p for p, k in enumerate(chosen[0][0]) if k} != kept or kept != tables or total != least \
            or R.least_cost_of_all(pairs, uses, w, h) != least:
        differs('plan', net, f['pairs'], f['ends'], w, h, chosen, kept, tables, total, least)
    n['covers'] += 1
    ties = sum(1 for k, c in plans if c == least)
    if ties > 1:
        n['covers with ties'] += 1
    # least(p, w, h) of each shape, over plans of the part below p
    free = R.free_places(uses)
    for p, part in enumerate(parts):
        mine = {}
        for k, s, t in R.part_plans(pairs, free, p, w, h):
            mine[s] = min(t, mine.get(s, t))
        if mine != {s: min(v) for s, v in D.sums(w, h, part).items()}:
            differs('least sums', net, p, w, h)
        n['parts'] += 1


if __name__ == '__main__':
    begun = time.process_time()
    n = main(int(sys.argv[1]), int(sys.argv[2]))
    print('networks seed', sys.argv[1], dict(n), '%.0f s' % (time.process_time() - begun), flush=True)
