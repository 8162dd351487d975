# compare_runs.py SEED DECKS RUNS CYCLES: random legal runs of small decks, some of them spoiled, by the definitions of port_runs and of the
# headline and by the rules: pending nets and their targets, legal moves and what is broken in each state. Decks that aren't spoiled break nothing.
import random, sys, time
from collections import Counter
import definitions as D
import rules as R
from make_networks import draw_network
from run_definitions import Circuit, World
from run_rules import RuleDeck, RuleRun


def spoil(r, named):
    named = list(named)
    if not named:
        return named, 'none'
    way = r.choice(['keeper', 'nofoot', 'gate', 'drop', 'kind', 'double', 'ends', 'end', 'weak', 'latch', 'sinks', 'keeperclock'])
    i = r.randrange(len(named))
    k, d, g, s = named[i]
    nets = sorted({n for x in named for n in x[1:]})
    if way == 'keeper':
        named = [('pch',) + x[1:] if x[0] == 'pkeep' else x for x in named]
    elif way == 'keeperclock':
        named = [(x[0], x[1], 'ck1', x[3]) if x[0] == 'pkeep' else x for x in named]
    elif way == 'nofoot':
        feet = [x for x in named if x[1][0] == 'f' and x[3] == 'vss']
        if feet:
            f = r.choice(feet)
            named = [(x[0], x[1], x[2], 'vss' if x[3] == f[1] else x[3]) for x in named if x != f]
    elif way == 'gate':
        named[i] = (k, d, r.choice(nets), s)
    elif way == 'drop':
        del named[i]
    elif way == 'kind':
        named[i] = (r.choice(['nch', 'pch', 'pkeep']), d, g, s)
    elif way == 'double':
        named.insert(r.randrange(len(named)), named[i])
    elif way == 'ends':
        named[i] = (k, s, g, d)
    elif way == 'end':
        named[i] = (k, d, g, r.choice(nets))
    elif way == 'weak':
        named.append(('pkeep', r.choice(nets), r.choice(nets), r.choice(['vss', 'vdd', r.choice(nets)])))
    elif way == 'latch':
        named = [(x[0], x[1], {'ls': 'lm', 'lsb': 'lmb'}.get(x[2], x[2]), x[3]) for x in named]
    elif way == 'sinks':
        outs = [j for j, x in enumerate(named) if x[1].startswith('o_')]
        if outs:
            j = r.choice(outs)
            named[j] = named[j][:2] + (r.choice(nets),) + named[j][3:]
    return named, way


def cycle_of(net, memo):
    def of(stream):
        key = tuple(stream)
        if key not in memo:
            state = [int(i) for s, i in net.latches]
            for bits in key:
                sig = R.signal_bits(net, [bool(b) for b in bits] + [bool(b) for b in state])
                outs = [int(sig[s]) for s in net.outputs]
                old, state = state, [int(sig[s]) for s, i in net.latches]
            memo[key] = (outs, state, old)
        return memo[key]
    return of


def main(seed, decks, runs, cycles):
    r = random.Random(seed)
    n = Counter()
    seen = set()
    while n['decks'] < decks:
        net = draw_network(r, 3, 2, 5, 3, 3)
        w, h, phases = r.randint(2, 4), r.randint(2, 4), r.randint(1, 4)
        deck = R.Deck(net, w, h, phases)
        if not 0 < len(deck.number) <= 4 and r.random() < 0.9 or len(deck.cards) > 60:
            continue
        n['decks'] += 1
        cards = [tuple(c.split()) for c in deck.cards]
        named = [(c[4], c[0], c[1], c[2]) for c in cards]
        spoiled = r.random() < 0.4
        way = 'right'
        if spoiled:
            named, way = spoil(r, named)
            n['spoiled decks'] += 1
        pins, outs = D.pins_of(net), D.outs_of(net)
        circuit = D.with_devices(D.new_circuit(D.escaped(net.name), [], phases, pins, outs), named)
        text = D.text_with(circuit, D.leading_ports(phases), [pins, outs])
        c = Circuit(circuit, phases, len(pins), len(outs))
        rd = RuleDeck(text)
        names = circuit['nets']
        n['decks with a keeper that leads elsewhere'] += any(k == 'pkeep' and (s != 'vdd' or d == 'vdd') for k, d, g, s in named)
        if set(names) != set(rd.nets) or {names[x] for x in c.dynamic} != rd.dynamic or {names[x] for x in c.domino} != rd.domino:
            print('DIFFERS nets', net, way, flush=True)
        of = cycle_of(net, {})
        alike = {}
        found = set()
        for _ in range(runs):
            a, b = World(c), RuleRun(rd)
            eager = r.random()
            stream = [[r.randint(0, 1) for _ in pins] for _ in range(cycles)]
            left = r.randint(20, 400) * cycles              # a run is cut anywhere
            last = r.randint(1, cycles)
            cut = False
            while left:
                left -= 1
                pend = {names[x]: v for x, v in a.pending.items()}
                if pend != {x: (2 if v == 'X' else v) for x, v in b.wait.items()}:
                    print('DIFFERS pending', net, way, named, a.place, a.values, pend, b.wait, flush=True)
                    cut = True
                    break
                moves = a.moves()
                words = [m[1] if m[0] == 'open' else 'pins' if m[0] == 'take' else 'rise' for m in moves]
                if sorted(words) != sorted(b.can()):
                    print('DIFFERS moves', net, way, a.place, words, b.can(), flush=True)
                    cut = True
                    break
                a.check_network(net, lambda s: of(s)[:2])
                if b.at == 'evaluation' and b.up == phases and not b.wait:
                    o, nx, old = of(b.cycles)
                    n['readings'] += 1
                    if [b.val[x] for x in rd.outs] != o or [b.val.get('x%d' % j, 'X') for j in range(len(net.latches))] != nx:
                        b.bad.add('reads')
                if b.at == 'launched':
                    if [b.val.get('q%d' % j, 'X') for j in range(len(net.latches))] != of(b.cycles)[1]:
                        b.bad.add('launches')
                if a.broken != b.bad:
                    print('DIFFERS broken', net, way, named, a.place, a.broken, b.bad, flush=True)
                    cut = True
                    break
                n['states'] += 1
                if not a.pending:
                    key, v = a.alike_key(), a.alike_values()
                    if alike.setdefault(key, v) != v:
                        found.add('rests_alike')
                if way == 'right' and (b.at != 'reset' or not b.wait) and r.random() < 0.4:
                    if b.cycles:
                        o, new, old = of(b.cycles)
                        bits = b.cycles[-1]
                    else:
                        old = [int(i) for s, i in net.latches]
                        sig = R.signal_bits(net, [False] * len(pins) + [bool(x) for x in old])
                        new, bits = [int(sig[s]) for s, i in net.latches], [0] * len(pins)
                    masters = ['X' if len(b.cycles) <= 1 else 1 - q for q in old]
                    faults = b.honest(old, new, bits, [deck.clock[i] for i in sorted(deck.number)], sorted(deck.minus), len(net.latches), masters, deck.own)
                    if faults:
                        print('DIFFERS honest', net, a.place, faults, flush=True)
                    n['honest states'] += 1
                # the next step
                if a.pending and not (moves and r.random() < eager * 0.5):
                    x = r.choice(sorted(a.pending))
                    a.event(x)
                    b.take(names[x])
                    n['events'] += 1
                elif moves:
                    m = r.choice(moves)
                    bits = None
                    if m[0] == 'take':
                        if len(b.cycles) == last:
                            break
                        bits = stream[len(b.cycles)]
                    word = m[1] if m[0] == 'open' else 'pins' if m[0] == 'take' else 'rise'
                    if m[0] == 'rise' and a.pending:
                        n['clocks risen without rest'] += 1
                    a.move(m, bits)
                    b.go(word, bits)
                    n['moves'] += 1
                else:
                    break
            n['runs'] += 1
            found |= a.broken
            if cut:
                break
        if way == 'right' and found:
            print('DIFFERS right deck broken', net, w, h, phases, found, flush=True)
        for f in found:
            n['spoiled: ' + f] += 1
        if spoiled and not found:
            n['spoiled, nothing broken'] += 1
        n['nets at most'] = max(n['nets at most'], len(names))
    return n


if __name__ == '__main__':
    begun = time.process_time()
    n = main(*[int(x) for x in sys.argv[1:5]])
    print('runs seed', sys.argv[1], dict(n), '%.0f s' % (time.process_time() - begun), flush=True)
