# The rules of switches, of the environment and of the headline written apart:
# a deck is read from its text, nets are called by their names, paths are those that pass no net twice.
U = 'X'


class RuleDeck:
    def __init__(self, text, outs_front='o_'):
        self.cards, ports = [], []
        for line in text.splitlines():
            w = line.split()
            if w[0] == '.subckt':
                ports += w[2:]
            elif w[0] == '+':
                ports += w[1:]
            elif w[0][0] == 'm':
                self.cards.append((w[5], w[1], w[2], w[3]))
        self.ports = ports
        self.sources = [p for p in ports if not p.startswith(outs_front)]
        self.src = set(self.sources)
        self.outs = [p for p in ports if p.startswith(outs_front)]
        self.pins = [p for p in ports if p.startswith('i_')]
        self.clocks = [p for p in ports if p.startswith('ck')]
        seen = dict.fromkeys(ports)
        for m, d, g, s in self.cards:
            for n in (d, g, s):
                seen.setdefault(n)
        self.nets = list(seen)
        self.free = [n for n in self.nets if n not in self.src]
        self.at = {n: [] for n in self.nets}
        for card in self.cards:
            self.at[card[1]].append((card, card[3]))
            if card[3] != card[1]:
                self.at[card[3]].append((card, card[1]))
        self.memo = {}
        # what a net's paths can depend on
        self.scope = {}
        for n in self.nets:
            near, todo, scope = {n}, [n], {n}
            while todo:
                x = todo.pop()
                for (m, d, g, s), y in self.at[x]:
                    scope |= {g, y}
                    if y not in near and y not in self.src:
                        near.add(y)
                        todo.append(y)
            self.scope[n] = sorted(scope)
        self.wide = {(a, card, y): set(self.scope[y]) | {a, y, card[2]} for a in self.sources for card, y in self.at[a]}
        self.reached = {n: [m for m in self.nets if n in self.scope[m]] for n in self.nets}
        vdd = lambda d, s, n: (d == n and s == 'vdd') or (s == n and d == 'vdd')
        self.dynamic = {n for n in self.nets for m, d, g, s in self.cards if m == 'pch' and g in self.clocks and vdd(d, s, n)}
        self.domino = {n for n in self.nets for m, d, g, s in self.cards if m == 'pch' and g in self.dynamic and vdd(d, s, n)}

    def state(self, card, val):
        g = val[card[2]]
        if g == U:
            return 'maybe'
        return 'on' if (g == 1) == (card[0] == 'nch') else 'off'

    def paths(self, a, val, first=None):
        # each path from a that passes no net twice: (its devices, its far end)
        out = []

        def walk(x, used, passed):
            for card, y in self.at[x] if used or first is None else [first]:
                if card in used and used.count(card) >= self.cards.count(card):
                    continue
                if self.state(card, val) == 'off':
                    continue
                if y in passed or y == a:
                    continue
                out.append((used + [card], y))
                if y not in self.src:
                    walk(y, used + [card], passed | {y})
        walk(a, [], frozenset())
        return out

    def target(self, n, val):
        key = (n,) + tuple(val[x] for x in self.scope[n])
        if key not in self.memo:
            self.memo[key] = self.target_anew(n, val)
        return self.memo[key]

    def target_anew(self, n, val):
        ps = [(all(self.state(c, val) == 'on' for c in p), any(c[0] == 'pkeep' for c in p), e) for p, e in self.paths(n, val)]
        for weak in (False, True):
            poss = {val[e] for on, w, e in ps if w == weak and e in self.src}
            sure = {val[e] for on, w, e in ps if w == weak and on and e in self.src}
            if sure and poss == sure and len(sure) == 1:
                return sure.pop()
            if poss:
                return U
        return val[n] if all(val[e] == val[n] for on, w, e in ps) else U

    def pending(self, val, old, changed):
        # of nets that no changed net reaches nothing is new
        out = dict(old)
        for n in self.free if changed is None else {m for x in changed for m in self.reached[x] if m not in self.src}:
            t = self.target(n, val)
            out.pop(n, None)
            if t != val[n]:
                out[n] = t
        return out

    def joined(self, a, first, val):
        # paths from a source whose first card this is: whether one is a short, and the contests, each whether it is overpowered
        card, y = first
        key = ('j', a, card, y) + tuple(val[x] for x in sorted(self.wide[(a, card, y)]))
        if key not in self.memo:
            sh, co = False, []
            for p, e in self.paths(a, val, first):
                if e not in self.src:
                    continue
                keepers = [c for c in p if c[0] == 'pkeep']
                if not keepers and val[a] != val[e]:
                    sh = True
                if keepers and {a, e} == {'vdd', 'vss'}:
                    co.append(all(val[k[2]] == 0 and self.grounded(k[1], val) for k in keepers))
            self.memo[key] = (sh, co)
        return self.memo[key]

    def joins(self, val, old, changed):
        out = dict(old)
        for a in self.sources:
            for first in self.at[a]:
                if changed is None or changed & self.wide[(a,) + first]:
                    out[(a,) + first] = self.joined(a, first, val)
        return out

    def grounded(self, n, val):
        key = ('g', n) + tuple(val[x] for x in self.scope[n])
        if key not in self.memo:
            self.memo[key] = self.grounded_anew(n, val)
        return self.memo[key]

    def grounded_anew(self, n, val):
        return any(e == 'vss' and all(self.state(c, val) == 'on' and c[0] != 'pkeep' for c in p) for p, e in self.paths(n, val))


class RuleRun:
    # the environment as a list of what comes next in a cycle
    def __init__(self, deck):
        self.d = deck
        self.val = {n: U for n in deck.nets}
        for n in deck.sources:
            self.val[n] = 0
        for n in ('vdd', 'lmb', 'lsb', 'rs'):
            self.val[n] = 1
        self.at, self.up, self.cycles, self.events = 'reset', 0, [], 0
        self.falls, self.bad = None, set()
        self.wait, self.seen, self.pairs = {}, None, {}
        self.see()

    def see(self):
        changed = None if self.seen is None else [n for n in self.val if self.val[n] != self.seen[n]]
        self.wait = self.d.pending(self.val, self.wait, changed)
        self.pairs = self.d.joins(self.val, self.pairs, None if changed is None else set(changed))
        self.seen = dict(self.val)
        if self.at != 'reset' or not self.wait:
            contests = [x for sh, co in self.pairs.values() for x in co]
            if any(sh for sh, co in self.pairs.values()):
                self.bad.add('no_short')
            if not all(contests):
                self.bad.add('overpowered')
            if contests and not self.wait:
                self.bad.add('no_contest')
        if self.events > (len(self.d.free) + 1) ** 2:
            self.bad.add('few_events')

    def can(self):
        rest = not self.wait
        if self.at == 'evaluation':
            out = []
            if self.up < len(self.d.clocks):
                out.append('rise')
            elif rest:
                out.append('capture')
            return out
        if not rest:
            return []
        return [{'reset': 'released', 'released': 'pins', 'pins': 'evaluation', 'capture': 'captured', 'captured': 'precharge',
                 'precharge': 'launch', 'launch': 'launched', 'launched': 'pins'}[self.at]]

    def take(self, n):
        old, new = self.val[n], self.wait[n]
        if self.falls is not None:
            self.falls[n] = self.falls.get(n, 0) + 1
            if n in self.d.dynamic and (self.falls[n] > 1 or (old, new) != (1, 0)):
                self.bad.add('falls_once')
            if n in self.d.domino and (self.falls[n] > 1 or (old, new) != (0, 1)):
                self.bad.add('rises_once')
        self.val = dict(self.val)
        self.val[n] = new
        self.events += 1
        self.see()

    def go(self, word, bits=None):
        v = self.val = dict(self.val)
        if word == 'released':
            v['rs'], v['rsb'] = 0, 1
        elif word == 'pins':
            for p, b in zip(self.d.pins, bits):
                v[p] = b
            self.cycles.append(tuple(bits))
        elif word == 'evaluation':
            v['ck1'] = 1
            self.up, self.falls = 1, {}
        elif word == 'rise':
            self.up += 1
            v['ck%d' % self.up] = 1
        elif word in ('capture', 'captured'):
            v['lm'], v['lmb'] = (1, 0) if word == 'capture' else (0, 1)
        elif word == 'precharge':
            for k in self.d.clocks:
                v[k] = 0
            self.falls = None
        elif word in ('launch', 'launched'):
            v['ls'], v['lsb'] = (1, 0) if word == 'launch' else (0, 1)
        if word != 'rise':
            self.at = word
        self.events = 0
        self.see()

    def honest(self, old, new, pins_now, cells, complements, latches, masters, leaf):
        # what an honest state is, in this state; `masters` are the values before capture
        v, d = self.val, self.d
        faults = []
        known = lambda n: v[n] in (0, 1)
        if not all(known(n) for k in range(len(cells)) for n in ('d%d' % k, 'z%d' % k)) or not all(known('c%d' % p) for p in complements) \
                or not all(known(n) for j in range(latches) for n in ('q%d' % j, 'x%d' % j)) or not all(known(n) for n in d.outs):
            faults.append('honest, part 1')
        for k, clock in enumerate(cells):
            dz = (v['d%d' % k], v['z%d' % k])
            if v['ck%d' % clock] == 1:
                if dz not in ((1, 0), (0, 0), (0, 1)) or (dz[0] == 0 and not d.grounded('d%d' % k, v)):
                    faults.append('honest, part 2')
            elif dz != (1, 0) and not (self.at == 'precharge' and dz in ((0, 1), (1, 1))):
                faults.append('honest, part 3')
        for j in range(latches):
            q = v['q%d' % j]
            if not (q == old[j] if self.at not in ('launch', 'launched') else q in (old[j], new[j]) if self.at == 'launch' else q == new[j]):
                faults.append('honest, part 4')
        if self.at in ('evaluation', 'capture', 'captured', 'precharge'):
            if any(v['c%d' % p] != 1 - v[leaf(p)] for p in complements):
                faults.append('H4c')
        if self.at in ('capture', 'captured'):
            held = [n for k in range(len(cells)) for n in ('d%d' % k, 'z%d' % k)] + ['x%d' % j for j in range(latches)] + d.outs
            if any(d.target(n, v) != v[n] for n in held) or any(v['x%d' % j] != new[j] for j in range(latches)):
                faults.append('honest, part 5')
        for j in range(latches):
            m = v['m%d' % j]
            if self.at in ('reset', 'released', 'pins', 'evaluation'):
                good = m == (U if not self.cycles or (len(self.cycles) == 1 and self.at in ('pins', 'evaluation')) else 1 - old[j])
            elif self.at == 'capture':
                good = m in (masters[j], 1 - new[j])
            else:
                good = m == 1 - new[j]
            if not good:
                faults.append('honest, part 6')
        return faults
