# The rules of synthesis as a plain program, written apart from the definitions.
import sys
sys.setrecursionlimit(10000)


# ---------- a run of a network 

def table_bit(t, bits):
    ins, on, rows = t
    hit = any(all((c == '-') or (c == '1') == bits[s] for c, s in zip(row, ins)) for row in rows)
    return hit == on


def signal_bits(net, leaf_bits):
    bits = list(leaf_bits)
    for t in net.tables:
        bits.append(table_bit(t, bits))
    return bits


# ---------- decomposition: a builder that numbers nodes as it goes

class Builder:
    def __init__(self, net):
        self.net, self.nodes, self.spots = net, [], []
        self.leaves = net.inputs + len(net.latches)
        self.signal = [('l', i) for i in range(self.leaves)]
        for k, t in enumerate(net.tables):
            self.signal.append(self.table(k, t))
        self.sinks = [self.signal[s] for s in net.outputs] + [self.signal[s] for s, _ in net.latches]

    def make(self, word, *parts):
        self.nodes.append((word,) + parts)
        return ('n', len(self.nodes) - 1)

    def inv(self, a):
        return ('c', 1 - a[1]) if a[0] == 'c' else self.make('not', a)

    def op(self, word, a, b):
        strong = 0 if word == 'and' else 1          # the constant that decides
        if ('c', strong) in (a, b):
            return ('c', strong)
        if a[0] == 'c':
            return b
        if b[0] == 'c':
            return a
        return self.make(word, a, b)

    def bal(self, word, thunks):
        n = len(thunks)
        if n == 0:
            return ('c', 1 if word == 'and' else 0)
        if n == 1:
            return thunks[0]()
        half = n - n // 2
        left = self.bal(word, thunks[:half])
        right = self.bal(word, thunks[half:])
        return self.op(word, left, right)

    def table(self, k, t):
        ins, on, rows = t
        made = []
        for row in rows:
            todo = []
            for s, c in zip(ins, row):
                if c == '1':
                    todo.append(lambda s=s: self.signal[s])
                elif c == '0':
                    todo.append(lambda s=s: self.inv(self.signal[s]))
            made.append(self.bal('and', todo))
        value = self.bal('or', [lambda m=m: m for m in made])
        return value if on else self.inv(value)


# ---------- needed pairs, forward from the sinks; a pair is (node, 1 or 0)

def ask(nodes, r, s):
    while r[0] == 'n' and nodes[r[1]][0] == 'not':
        r, s = nodes[r[1]][1], 1 - s
    return r, s


def needed(b, signs):
    seen, todo = set(), []
    for r, s in zip(b.sinks, signs):
        r, s = ask(b.nodes, r, s)
        if r[0] == 'n':
            todo.append((r[1], s))
    while todo:
        p = todo.pop()
        if p in seen:
            continue
        seen.add(p)
        for r in b.nodes[p[0]][1:]:
            r, s = ask(b.nodes, r, p[1])
            if r[0] == 'n':
                todo.append((r[1], s))
    return seen


# by terms: a gate node is called by its table and its place in the term; nothing is numbered
class Terms:
    def __init__(self, net):
        self.net, self.leaves = net, net.inputs + len(net.latches)
        self.trees = []
        for ins, on, rows in net.tables:
            rows = [self.half('and', [('s', s) if c == '1' else ('not', ('s', s)) for s, c in zip(ins, row) if c != '-']) for row in rows]
            t = self.half('or', rows)
            self.trees.append(t if on else ('not', t))
        self.memo = {}

    def half(self, word, xs):
        if not xs:
            return ('k', word == 'and')
        if len(xs) == 1:
            return xs[0]
        m = (len(xs) + 1) >> 1
        return (word, self.half(word, xs[:m]), self.half(word, xs[m:]))

    def const(self, t):
        # the constant that a term is by folding, or None
        if t[0] == 'k':
            return t[1]
        if t[0] == 's':
            return None if t[1] < self.leaves else self.table_const(t[1] - self.leaves)
        if t[0] == 'not':
            c = self.const(t[1])
            return None if c is None else not c
        a, b = self.const(t[1]), self.const(t[2])
        if t[0] == 'and':
            if a is False or b is False:
                return False
            return True if a and b else None
        if a is True or b is True:
            return True
        return False if a is False and b is False else None

    def table_const(self, k):
        if k not in self.memo:
            self.memo[k] = self.const(self.trees[k])
        return self.memo[k]

    def pairs(self, signs):
        seen = set()

        def want(k, way, t, s):
            if self.const(t) is not None:
                return
            if t[0] == 's':
                if t[1] >= self.leaves:
                    want(t[1] - self.leaves, '', self.trees[t[1] - self.leaves], s)
            elif t[0] == 'not':
                want(k, way + '!', t[1], not s)
            elif self.const(t[1]) is not None:
                want(k, way + '1', t[2], s)
            elif self.const(t[2]) is not None:
                want(k, way + '0', t[1], s)
            elif (k, way, s) not in seen:
                seen.add((k, way, s))
                want(k, way + '0', t[1], s)
                want(k, way + '1', t[2], s)
        for sig, s in zip(list(self.net.outputs) + [x for x, _ in self.net.latches], signs):
            want(None, '', ('s', sig), s)
        return len(seen)


# ---------- phases

def choose_signs(b):
    signs = [1] * len(b.sinks)
    size = len(needed(b, signs))
    again = True
    while again:
        again = False
        for i in range(len(signs)):
            signs[i] ^= 1
            new = len(needed(b, signs))
            if new < size:
                size, again = new, True
            else:
                signs[i] ^= 1
    return signs


# ---------- the forest: pairs in order, each (word, side, side); a side is ('lit', leaf, s) or ('pair', i)

def forest(b, signs):
    order = sorted(needed(b, signs), key=lambda p: 2 * p[0] + 1 - p[1])
    place = {p: i for i, p in enumerate(order)}
    pairs, uses = [], {i: [] for i in range(len(order))}
    for i, (n, s) in enumerate(order):
        word = b.nodes[n][0]
        if not s:
            word = 'or' if word == 'and' else 'and'
        sides = []
        for r in b.nodes[n][1:]:
            r, t = ask(b.nodes, r, s)
            if r[0] == 'l':
                sides.append(('lit', r[1], t))
            else:
                sides.append(('pair', place[(r[1], t)]))
                uses[place[(r[1], t)]].append(i)
        pairs.append((word, sides[0], sides[1]))
    ends = []
    for r, s in zip(b.sinks, signs):
        r1, t = ask(b.nodes, r, s)
        if r1[0] == 'n':
            uses[place[(r1[1], t)]].append(None)
            ends.append(('d' if s else 'z', place[(r1[1], t)]))
        else:
            r0, t0 = ask(b.nodes, r, 1)
            ends.append(('c', r0[1] if t0 else 1 - r0[1]) if r0[0] == 'c' else ('lit', r0[1], t0))
    return order, pairs, uses, ends


def free_places(uses):
    return {i for i, u in uses.items() if len(u) == 1 and u[0] is not None}


# ---------- the cover by plans: all sets of kept free edges, whole trees, and the ties as the rules tell them

def shape_and_leaves(pairs, kept, i):
    hs, ws, n = [], [], 0
    for side in pairs[i][1:]:
        if side[0] == 'pair' and side[1] in kept:
            h, w, k = shape_and_leaves(pairs, kept, side[1])
        else:
            h, w, k = 1, 1, 1
        hs.append(h)
        ws.append(w)
        n += k
    return (sum(hs), max(ws), n) if pairs[i][0] == 'and' else (max(hs), sum(ws), n)


def below(pairs, free, i):
    # the pairs of the part below i that free edges reach
    out = []
    for side in pairs[i][1:]:
        if side[0] == 'pair' and side[1] in free:
            out += [side[1]] + below(pairs, free, side[1])
    return out


def part_plans(pairs, free, i, w, h):
    # all plans of the part below i: (kept, shape of the tree of i, leaves of that tree plus the whole costs of the others)
    inner = below(pairs, free, i)
    for bits in range(1 << len(inner)):
        kept = {p for j, p in enumerate(inner) if bits >> j & 1}
        hh, ww, n = shape_and_leaves(pairs, kept, i)
        total, good = n, hh <= h and ww <= w
        for p in inner:
            if p not in kept and good:
                a, b, m = shape_and_leaves(pairs, kept, p)
                good = a <= h and b <= w
                total += m + 5
        if good:
            yield frozenset(kept), (hh, ww), total


def cover_by_plans(pairs, uses, w, h):
    free = free_places(uses)
    memo = {}

    def plans(i):
        if i not in memo:
            memo[i] = list(part_plans(pairs, free, i, w, h))
        return memo[i]
    kept = set()

    def decide_root(i):
        least = min(t for k, s, t in plans(i))
        shapes = sorted({s for k, s, t in plans(i) if t == least})      # by height, then by width
        decide(i, shapes[0])

    def options(i, side, k):
        # what plan k does with a side, as a word that sorts in the order of choices, and the side itself
        if side[0] == 'pair' and side[1] in free:
            if side[1] in k:
                hh, ww, _ = shape_and_leaves(pairs, k, side[1])
                return (0, hh, ww)
            return (1, 0, 0)
        return (2, 0, 0)

    def decide(i, shape):
        here = [(k, t) for k, s, t in plans(i) if s == shape]
        least = min(t for k, t in here)
        word, a, b = pairs[i]
        first = min((options(i, a, k), options(i, b, k)) for k, t in here if t == least)
        for side, choice in zip((a, b), first):
            if choice[0] == 0:
                kept.add(side[1])
                decide(side[1], choice[1:])
            elif choice[0] == 1:
                decide_root(side[1])
    for i in range(len(pairs)):
        if i not in free:
            decide_root(i)
    total = 0
    for i in range(len(pairs)):
        if i not in kept:
            total += shape_and_leaves(pairs, kept, i)[2] + 5
    return kept, total


def least_cost_of_all(pairs, uses, w, h):
    free = sorted(free_places(uses))
    best = None
    for bits in range(1 << len(free)):
        kept = {p for j, p in enumerate(free) if bits >> j & 1}
        total, good = 0, True
        for i in range(len(pairs)):
            if i not in kept:
                a, b, m = shape_and_leaves(pairs, kept, i)
                if a > h or b > w:
                    good = False
                    break
                total += m + 5
        if good and (best is None or total < best):
            best = total
    return best


# ---------- the cover by tables (for networks of any size)

def cover(pairs, uses, w, h):
    free = free_places(uses)
    table = [None] * len(pairs)
    menu = [None] * len(pairs)

    def side_menu(side):
        if side[0] == 'pair' and side[1] in free:
            t = table[side[1]]
            return [(s, t[s], s) for s in sorted(t)] + [((1, 1), 1 + min(t.values()) + 5, 'cut')]
        return [((1, 1), 1, 'leaf')]
    for i, (word, a, b) in enumerate(pairs):
        t = {}
        menu[i] = (side_menu(a), side_menu(b))
        for (ha, wa), na, _ in menu[i][0]:
            for (hb, wb), nb, _ in menu[i][1]:
                s = (ha + hb, max(wa, wb)) if word == 'and' else (max(ha, hb), wa + wb)
                if s[0] <= h and s[1] <= w and na + nb < t.get(s, 1 << 60):
                    t[s] = na + nb
        table[i] = t
    kept, decided = set(), {}
    for i in range(len(pairs) - 1, -1, -1):
        t = table[i]
        if i not in decided:
            least = min(t.values())
            decided[i] = min(s for s in t if t[s] == least)
        goal = decided[i]
        word, a, b = pairs[i]
        done = False
        for (ha, wa), na, ca in menu[i][0]:
            for (hb, wb), nb, cb in menu[i][1]:
                s = (ha + hb, max(wa, wb)) if word == 'and' else (max(ha, hb), wa + wb)
                if s == goal and na + nb == t[goal]:
                    for side, c in ((a, ca), (b, cb)):
                        if c not in ('cut', 'leaf'):
                            kept.add(side[1])
                            decided[side[1]] = c
                    done = True
                    break
            if done:
                break
        assert done
    return kept


# ---------- the text of a deck, written straight from the rules

def esc(name):
    return ''.join(c if c in 'abcdefghijklmnopqrstuvwxyz0123456789' else '_%02x' % ord(c) for c in name)


class Deck:
    def __init__(self, net, w, h, phases, by_plans=False):
        b = Builder(net)
        self.signs = choose_signs(b)
        self.order, self.pairs, uses, self.ends = forest(b, self.signs)
        self.kept = cover_by_plans(self.pairs, uses, w, h)[0] if by_plans else cover(self.pairs, uses, w, h)
        self.net, self.phases = net, phases
        self.number = {}
        for i in range(len(self.pairs)):
            if i not in self.kept:
                self.number[i] = len(self.number)
        self.level = {}
        for i in sorted(self.number):
            self.level[i] = 1 + max([self.level[j] for j in self.cut_below(i)], default=0)
        top = max(self.level.values(), default=0)
        self.clock = {i: 1 + (self.level[i] - 1) * phases // top for i in self.number}
        self.text = self.write()

    def cut_below(self, i):
        out = []
        for side in self.pairs[i][1:]:
            if side[0] == 'pair':
                out += self.cut_below(side[1]) if side[1] in self.kept else [side[1]]
        return out

    def own(self, leaf):
        n = self.net
        return 'i_' + esc(n.names[leaf]) if leaf < n.inputs else 'q' + str(leaf - n.inputs)

    def side_gate(self, side):
        if side[0] == 'lit':
            if side[2]:
                return self.own(side[1])
            self.minus.add(side[1])
            return 'c' + str(side[1])
        return 'z' + str(self.number[side[1]])

    def pull(self, i, top, bottom, k):
        word, a, b = self.pairs[i]
        mid = None
        if word == 'and':
            mid = 't%d_%d' % (k, self.inner)
            self.inner += 1
        for side, (x, y) in zip((a, b), ((top, mid), (mid, bottom)) if mid else ((top, bottom), (top, bottom))):
            if side[0] == 'pair' and side[1] in self.kept:
                self.pull(side[1], x, y, k)
            else:
                self.card(x, self.side_gate(side), y, 'nch')

    def card(self, d, g, s, model):
        self.cards.append('%s %s %s %s %s' % (d, g, s, 'vss' if model == 'nch' else 'vdd', model))

    def invert(self, gate, out):
        self.card(out, gate, 'vdd', 'pch')
        self.card(out, gate, 'vss', 'nch')

    def write(self):
        n = self.net
        self.cards, self.minus = [], set()
        for i in sorted(self.number):
            k = self.number[i]
            ck = 'ck%d' % self.clock[i]
            self.card('d%d' % k, ck, 'vdd', 'pch')
            self.card('d%d' % k, 'z%d' % k, 'vdd', 'pkeep')
            self.inner = 0
            self.pull(i, 'd%d' % k, 'f%d' % k, k)
            self.card('f%d' % k, ck, 'vss', 'nch')
            self.invert('d%d' % k, 'z%d' % k)
        sinks = ['o_' + esc(n.names[s]) for s in n.outputs] + ['x%d' % j for j in range(len(n.latches))]
        gates = []
        for e in self.ends:
            if e[0] == 'c':
                gates.append('vss' if e[1] else 'vdd')
            elif e[0] == 'lit':
                if e[2]:
                    self.minus.add(e[1])
                    gates.append('c%d' % e[1])
                else:
                    gates.append(self.own(e[1]))
            else:
                gates.append('%s%d' % (e[0], self.number[e[1]]))
        for p in sorted(self.minus):
            self.invert(self.own(p), 'c%d' % p)
        for j, (s, init) in enumerate(n.latches):
            for line in ('m{0} lmb m{0}p pch;m{0}p x{0} vdd pch;m{0} lm m{0}n nch;m{0}n x{0} vss nch;'
                         'q{0} lsb q{0}p pch;q{0}p m{0} vdd pch;q{0} ls q{0}n nch;q{0}n m{0} vss nch').format(j).split(';'):
                self.card(*line.split())
            self.card('q%d' % j, *(('rsb', 'vdd', 'pch') if init else ('rs', 'vss', 'nch')))
        for g, o in zip(gates, sinks):
            self.invert(g, o)
        lines = ['* domsyn deck 1']
        for o, s in zip(sinks, self.signs):
            lines.append('* phase %s %s' % (o, '+' if s else '-'))
        lines.append(' '.join(['.subckt', esc(n.name), 'vdd', 'vss'] + ['ck%d' % c for c in range(1, self.phases + 1)]
                              + ['lm', 'lmb', 'ls', 'lsb', 'rs', 'rsb']))
        for group in (['i_' + esc(n.names[s]) for s in range(n.inputs)], sinks[:len(n.outputs)]):
            for at in range(0, len(group), 8):
                lines.append('+ ' + ' '.join(group[at:at + 8]))
        for i, c in enumerate(self.cards):
            lines.append('m%d %s' % (i, c))
        lines.append('.ends ' + esc(n.name))
        return '\n'.join(lines) + '\n'
