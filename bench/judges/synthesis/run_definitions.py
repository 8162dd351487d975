# deck/Paths, switch_model/Targets, domino_law/Joins, port_runs and deck_law/Headline, copied by hand. Values are 0, 1 and 2 (Unknown).
# A path may pass a net twice; whether there is one is asked of all nets and of whether a keeper was passed.

def conduction(kind, gate):
    return gate if kind == 'nch' else (1, 0, 2)[gate]


class Circuit:
    def __init__(self, c, clocks, pins, outs):
        self.c, self.clocks, self.pins, self.outs = c, clocks, pins, outs
        self.devices, self.nets = c['devices'], len(c['nets'])
        self.first_pin = clocks + 8
        self.first_output = self.first_pin + pins
        self.sources = self.first_output                       # source_count
        # groups of nets that devices join, for remembering targets: a path from a net stays in its group
        group = list(range(self.nets))
        def top(a):
            while group[a] != a:
                a = group[a]
            return a
        for k, d, g, s in self.devices:
            if d >= self.sources and s >= self.sources:
                group[top(d)] = top(s)
        self.group = [top(a) for a in range(self.nets)]
        self.inside, self.touch = {}, {}
        for i, (k, d, g, s) in enumerate(self.devices):
            a = self.group[d] if d >= self.sources else self.group[s] if s >= self.sources else ('alone', i)
            self.inside.setdefault(a, []).append(i)
            self.touch.setdefault(a, set()).update((d, g, s))
        for n in range(self.sources, self.nets):
            self.inside.setdefault(self.group[n], [])
            self.touch.setdefault(self.group[n], set()).add(n)
        self.touch = {a: tuple(sorted(t)) for a, t in self.touch.items()}
        self.touched_by = {n: [a for a, t in self.touch.items() if n in t] for n in range(self.nets)}
        self.known = {}
        self.dynamic = {n for n in range(self.nets) if self.is_dynamic(n)}
        self.domino = {n for n in range(self.nets) if any(
            k == 'pch' and g in self.dynamic and 0 in (d, s) and n in (d, s) and (n == d and s == 0 or n == s and d == 0)
            for k, d, g, s in self.devices)}
        self.gated = {g for k, d, g, s in self.devices}

    def is_source(self, n):
        return n < self.sources

    def is_dynamic(self, n):
        return any(k == 'pch' and 2 <= g < 2 + self.clocks and (d == n and s == 0 or s == n and d == 0) for k, d, g, s in self.devices)

    def reach(self, a, devices, values, definite):
        # all (net, weak) to which a path of one device or more leads from a
        found, todo = set(), [(a, False)]
        while todo:
            x, weak = todo.pop()
            for k, d, g, s in devices:
                v = conduction(k, values[g])
                if not (v == 1 if definite else v != 0):
                    continue
                for p, q in ((d, s), (s, d)):
                    if p == x:
                        n = (q, weak or k == 'pkeep')
                        if n not in found:
                            found.add(n)
                            if not self.is_source(q):
                                todo.append(n)
        return found

    def target_of(self, net, devices, values):
        definite, possible = self.reach(net, devices, values, True), self.reach(net, devices, values, False)
        def pulls(weak):
            at = [values[s] for s, k in possible if k == weak and self.is_source(s)]
            for s, k in definite:
                if k == weak and self.is_source(s) and all(v == values[s] for v in at):
                    return values[s]
            return None
        def disputes(weak):
            return any(k == weak and self.is_source(s) for s, k in possible)
        for weak in (False, True):
            v = pulls(weak)
            if v is not None:
                return v
            if disputes(weak):
                return 2
        if all(values[n] == values[net] for n, k in possible):
            return values[net]
        return 2

    def facts(self, group, values):
        # targets of the group's nets, shorts and contests through it
        key = (group,) + tuple(values[n] for n in self.touch[group])
        if key not in self.known:
            devices = [self.devices[i] for i in self.inside[group]]
            targets = {n: self.target_of(n, devices, values) for n in self.touch[group] if not self.is_source(n) and self.group[n] == group}
            sources = [n for n in self.touch[group] if self.is_source(n)]
            short = any(self.is_source(b) and not weak and values[a] != values[b]
                        for a in sources for b, weak in self.reach(a, devices, values, False))
            # keepers on possible paths between vdd and vss: from the one supply to an end, and from the other end to the other supply
            contests, overpowered = False, True
            for k, d, g, s in devices:
                if k != 'pkeep' or conduction(k, values[g]) == 0:
                    continue
                for x, y in ((d, s), (s, d)):
                    up = x == 0 or not self.is_source(x) and any(n == x for n, w in self.reach(0, devices, values, False))
                    down = y == 1 or not self.is_source(y) and any(n == 1 for n, w in self.reach(y, devices, values, False))
                    if up and down:
                        contests = True
                        if values[g] != 0 or (1, False) not in self.reach(d, devices, values, True):
                            overpowered = False
            self.known[key] = (targets, short, contests, overpowered)
        return self.known[key]

    def all_facts(self, values, old=None, changed=()):
        # the facts of each group; only groups with a net that changed can have others than before
        facts = dict(old) if old else {}
        for group in ({g for n in changed for g in self.touched_by[n]} if old else self.inside):
            facts[group] = self.facts(group, values)
        pending = {n: v for f in facts.values() for n, v in f[0].items() if v != values[n]}
        return facts, pending, any(f[1] for f in facts.values()), any(f[2] for f in facts.values()), all(f[3] for f in facts.values())


NEXT = {('reset', 'released'), ('pins', 'evaluation'), ('evaluation', 'capture'), ('capture', 'captured'), ('captured', 'precharge'),
        ('precharge', 'launch'), ('launch', 'launched')}
PLACES = ['reset', 'released', 'pins', 'evaluation', 'capture', 'captured', 'precharge', 'launch', 'launched']


class World:
    def __init__(self, c):
        self.c, self.place, self.risen, self.past, self.pins = c, 'reset', 0, [], []
        self.values = [1, 0] + [0] * c.clocks + [0, 1, 0, 1, 1, 0] + [0] * c.pins
        self.values += [2] * (c.nets - len(self.values))
        self.steps, self.stream, self.between = [], [], 0
        self.opened = None                          # steps since the last opening of evaluation whose precharge isn't open
        self.broken = set()
        self.facts, self.before = None, None
        self.look()

    def look(self):
        changed = [n for n, (x, y) in enumerate(zip(self.values, self.before)) if x != y] if self.before else ()
        self.facts, self.pending, short, contest, over = self.c.all_facts(self.values, self.facts, changed)
        self.before = self.values
        rests = not self.pending
        if self.place != 'reset' or rests:          # HasReset: of this state
            if short:
                self.broken.add('no_short')
            if contest and not over:
                self.broken.add('overpowered')
            if contest and rests:
                self.broken.add('no_contest')
        if self.between > (self.c.nets - self.c.sources + 1) ** 2:
            self.broken.add('few_events')

    def moves(self):
        rests, found = not self.pending, []
        for place in PLACES:
            if (self.place, place) in NEXT and rests and (place != 'capture' or self.risen == self.c.clocks):
                found.append(('open', place))
        if self.place in ('released', 'launched') and rests:
            found.append(('take',))
        if self.place == 'evaluation' and self.risen < self.c.clocks:
            found.append(('rise',))
        return found

    def event(self, n):
        v = self.pending[n]
        if self.opened is not None:
            if n in self.c.dynamic and not (self.values[n] == 1 and v == 0 and n not in self.opened):
                self.broken.add('falls_once')
            if n in self.c.domino and not (self.values[n] == 0 and v == 1 and n not in self.opened):
                self.broken.add('rises_once')
            self.opened.append(n)
        self.values = self.values[:n] + [v] + self.values[n + 1:]
        self.between += 1
        self.look()

    def move(self, m, bits=None):
        c, v = self.c, list(self.values)
        lm = c.clocks + 2
        def put(port, *new):
            v[port:port + len(new)] = new
        if m[0] == 'open':
            p = m[1]
            {'released': lambda: put(lm + 4, 0, 1), 'evaluation': lambda: put(2, 1), 'capture': lambda: put(lm, 1, 0),
             'captured': lambda: put(lm, 0, 1), 'precharge': lambda: put(2, *[0] * c.clocks), 'launch': lambda: put(lm + 2, 1, 0),
             'launched': lambda: put(lm + 2, 0, 1)}[p]()
            self.place = p
            if p == 'evaluation':
                self.risen, self.opened = 1, []
            if p == 'precharge':
                self.opened = None
        elif m[0] == 'take':
            put(c.first_pin, *bits)
            if self.place == 'launched':
                self.past = self.past + [self.pins]
            self.place, self.pins = 'pins', bits
            self.stream = self.stream + [tuple(bits)]
        else:
            put(2 + self.risen, 1)
            self.risen += 1
        self.values, self.between = v, 0
        self.look()

    def is_reading(self):
        return self.place == 'evaluation' and self.risen == self.c.clocks and not self.pending

    def output_values(self):
        return self.values[self.c.first_output:self.c.first_output + self.c.outs]

    def latch_values(self, letter, count):
        nets = self.c.c['nets']
        return [self.values[nets.index(letter + str(j))] if letter + str(j) in nets else 2 for j in range(count)]

    def check_network(self, net, cycle_of):
        # reads and launches, of this state; cycle_of gives (outputs, next) of the last cycle of a stream
        if self.is_reading():
            outs, nexts = cycle_of(self.stream)
            if self.output_values() != outs or self.latch_values('x', len(net.latches)) != nexts:
                self.broken.add('reads')
        if self.place == 'launched':
            outs, nexts = cycle_of(self.stream)
            if self.latch_values('q', len(net.latches)) != nexts:
                self.broken.add('launches')

    def alike_key(self):
        return (tuple(self.stream), self.place, self.risen if self.place == 'evaluation' else None)

    def alike_values(self):
        c = self.c
        return tuple(self.values[n] for n in range(c.nets) if n in c.gated or c.first_output <= n < c.first_output + c.outs)
