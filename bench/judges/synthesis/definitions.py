# The definitions of gate_decompose, sp_network, dual_rail, phase_assign, tree_map, clock_phase, domino_cell, latch_bind, synth_flow, deck
# and spice_text, copied by hand from their specs/*.antt: a function per definition, relations by enumeration, nothing by the product's way.
from functools import lru_cache
from itertools import product

# --- sp_network/Balanced, gate_decompose/Terms

def first_half(m):
    return (m + 1) // 2

def balanced_within(n, op, none, xs):
    if n == 0 or not xs:
        return none
    if len(xs) == 1:
        return xs[0]
    return op(balanced_within(n - 1, op, none, xs[:first_half(len(xs))]), balanced_within(n - 1, op, none, xs[first_half(len(xs)):]))

def balanced(op, none, xs):
    return balanced_within(len(xs), op, none, xs)

def items(inputs, row):
    if not inputs or not row:
        return []
    more = items(inputs[1:], row[1:])
    if row[0] == '1':
        return [('sig', inputs[0])] + more
    if row[0] == '0':
        return [('not', ('sig', inputs[0]))] + more
    return more

def row_term(inputs, row):
    return balanced(lambda l, r: ('and', l, r), ('const', True), items(inputs, row))

def rows_term(t):
    return balanced(lambda l, r: ('or', l, r), ('const', False), [row_term(t[0], row) for row in t[2]])

def table_term(t):
    return rows_term(t) if t[1] else ('not', rows_term(t))

def term_value(value, t):
    if t[0] == 'const':
        return t[1]
    if t[0] == 'sig':
        return value(t[1])
    if t[0] == 'not':
        return not term_value(value, t[1])
    if t[0] == 'and':
        return term_value(value, t[1]) and term_value(value, t[2])
    return term_value(value, t[1]) or term_value(value, t[2])

# --- gate_decompose/GateNodes: a way is a tuple, the last turn first

def folded_not(name, a):
    return ('fixed', not a[1]) if a[0] == 'fixed' else ('made', name)

def folded_and(name, a, b):
    if a == ('fixed', False):
        return ('fixed', False)
    if b == ('fixed', False):
        return ('fixed', False)
    if a == ('fixed', True):
        return b
    if b == ('fixed', True):
        return a
    return ('made', name)

def folded_or(name, a, b):
    if a == ('fixed', True):
        return ('fixed', True)
    if b == ('fixed', True):
        return ('fixed', True)
    if a == ('fixed', False):
        return b
    if b == ('fixed', False):
        return a
    return ('made', name)

def folded(of, table, way, t):
    if t[0] == 'const':
        return ('fixed', t[1])
    if t[0] == 'sig':
        return of(t[1])
    if t[0] == 'not':
        return folded_not((table, way), folded(of, table, ('L',) + way, t[1]))
    l = folded(of, table, ('L',) + way, t[1])
    r = folded(of, table, ('R',) + way, t[2])
    return (folded_and if t[0] == 'and' else folded_or)((table, way), l, r)

def leaf_count(net):
    return net.inputs + len(net.latches)

def sink_signals(net):
    return list(net.outputs) + [s for s, init in net.latches]

def operands(net):
    known = [('input', leaf) for leaf in range(leaf_count(net))]
    for k, t in enumerate(net.tables):
        known.append(folded(lambda s: known[s], k, (), table_term(t)))
    return known

def are_operands(net, known):
    of = lambda s: known[s]
    return all(of(l) == ('input', l) for l in range(leaf_count(net))) and all(
        of(leaf_count(net) + k) == folded(of, k, (), table_term(t)) for k, t in enumerate(net.tables))

def is_fixed(a):
    return a[0] == 'fixed'

def standing(gone, name, joint):
    return [] if gone else [(name, joint)]

def or_nodes(of, table, way, l, r):
    a, b = folded(of, table, ('L',) + way, l), folded(of, table, ('R',) + way, r)
    return standing(is_fixed(a) or is_fixed(b), (table, way), ('or', a, b))

def and_nodes(of, table, way, l, r):
    a, b = folded(of, table, ('L',) + way, l), folded(of, table, ('R',) + way, r)
    return standing(is_fixed(a) or is_fixed(b), (table, way), ('and', a, b))

def not_nodes(of, table, way, t):
    a = folded(of, table, ('L',) + way, t)
    return standing(is_fixed(a), (table, way), ('not', a))

def row_nodes(of, table, way, t):
    if t[0] == 'not':
        return row_nodes(of, table, ('L',) + way, t[1]) + not_nodes(of, table, way, t[1])
    if t[0] == 'and':
        return row_nodes(of, table, ('L',) + way, t[1]) + row_nodes(of, table, ('R',) + way, t[2]) + and_nodes(of, table, way, t[1], t[2])
    return []

def inside_nodes(of, table, way, t):
    if t[0] == 'or':
        return inside_nodes(of, table, ('L',) + way, t[1]) + inside_nodes(of, table, ('R',) + way, t[2])
    return row_nodes(of, table, way, t)

def above_nodes(of, table, way, t):
    if t[0] == 'or':
        return above_nodes(of, table, ('L',) + way, t[1]) + above_nodes(of, table, ('R',) + way, t[2]) + or_nodes(of, table, way, t[1], t[2])
    return []

def rows_nodes(of, table, way, t):
    return inside_nodes(of, table, way, t) + above_nodes(of, table, way, t)

def table_nodes(of, table, t):
    if t[1]:
        return rows_nodes(of, table, (), rows_term(t))
    return rows_nodes(of, table, ('L',), rows_term(t)) + not_nodes(of, table, (), rows_term(t))

def network_nodes(of, net):
    return [n for k, t in enumerate(net.tables) for n in table_nodes(of, k, t)]

def ref_of(names, a):
    if a[0] == 'fixed':
        return ('const', a[1])
    if a[0] == 'input':
        return ('leaf', a[1])
    return ('node', names.index(a[1]) if a[1] in names else len(names))

def gates_of(net):
    known = operands(net)
    assert are_operands(net, known)
    of = lambda s: known[s]
    named = network_nodes(of, net)
    names = [n for n, j in named]
    assert len(set(names)) == len(names)
    nodes = [(j[0],) + tuple(ref_of(names, a) for a in j[1:]) for n, j in named]
    sinks = [ref_of(names, of(s)) for s in sink_signals(net)]
    return dict(leaves=leaf_count(net), nodes=nodes, sinks=sinks, names=names)

def is_term_part(leaves, n, r):
    return r[0] == 'leaf' and r[1] < leaves or r[0] == 'node' and r[1] < n

def are_in_place(g):
    return all(all(is_term_part(g['leaves'], n, r) for r in x[1:]) for n, x in enumerate(g['nodes'])) and all(
        r[0] == 'const' or r[0] == 'leaf' and r[1] < g['leaves'] or r[0] == 'node' and r[1] < len(g['nodes']) for r in g['sinks'])

def ref_value(leaf, node, r):
    return r[1] if r[0] == 'const' else leaf[r[1]] if r[0] == 'leaf' else node[r[1]]

def node_values(g, leaf):
    node = []
    for x in g['nodes']:
        v = [ref_value(leaf, node, r) for r in x[1:]]
        node.append(not v[0] if x[0] == 'not' else (v[0] and v[1]) if x[0] == 'and' else (v[0] or v[1]))
    return node

# --- gate_decompose/Needed

def asks_for(nodes, r, sign):
    if r[0] == 'const':
        return ('value', r[1] if sign else not r[1])
    if r[0] == 'leaf':
        return ('literal', r[1], sign)
    x = nodes[r[1]]
    if x[0] == 'not':
        return asks_for(nodes, x[1], not sign)
    return ('pair', r[1], sign)

def demands(g):
    # the pairs that each pair's parts ask for, left and right
    nodes = g['nodes']
    return {(n, s): [a[1:] for a in (asks_for(nodes, x[1], s), asks_for(nodes, x[2], s)) if a[0] == 'pair']
            for n, x in enumerate(nodes) if x[0] != 'not' for s in (True, False)}

def is_closed(g, signs, holds, below):
    for r, sign in zip(g['sinks'], signs):
        a = asks_for(g['nodes'], r, sign)
        if a[0] == 'pair' and a[1:] not in holds:
            return False
    return all(q in holds for p in holds for q in below[p])

def needed_by_all_sets(g, signs):
    below = demands(g)
    pairs = sorted(below, key=lambda p: (p[0], not p[1]))
    common = None
    for bits in range(1 << len(pairs)):
        holds = {p for i, p in enumerate(pairs) if bits >> i & 1}
        if is_closed(g, signs, holds, below):
            common = holds if common is None else common & holds
    return sorted(common, key=lambda p: (p[0], not p[1]))

def needed(g, signs):
    # the least closed set where there are too many sets: a closed set each of whose members is forced
    below = demands(g)
    forced = set()
    for r, sign in zip(g['sinks'], signs):
        a = asks_for(g['nodes'], r, sign)
        if a[0] == 'pair':
            forced.add(a[1:])
    while True:
        more = {q for p in forced for q in below[p]} - forced
        if not more:
            break
        forced |= more
    assert is_closed(g, signs, forced, below)
    return sorted(forced, key=lambda p: (p[0], not p[1]))

# --- phase_assign/Signs, by the sizes of all sign vectors

def with_sign_changed(signs, k):
    return signs[:k] + (not signs[k],) + signs[k + 1:]

class Sizes:
    def __init__(self, g):
        self.g, self.known = g, {}
    def __call__(self, signs):
        if signs not in self.known:
            self.known[signs] = len(needed(self.g, signs))
        return self.known[signs]

def lowers(size, signs, k):
    return size(with_sign_changed(signs, k)) < size(signs)

def are_settled(size, signs):
    return not any(lowers(size, signs, k) for k in range(len(signs)))

def is_turn_of(size, k, before, after):
    return lowers(size, before, k) and after == with_sign_changed(before, k) or not lowers(size, before, k) and after == before

def passes_from(size, before, all_signs):
    # all lists `after` with IsPassOf before after
    at = {before}
    for k in range(len(before)):
        at = {after for b in at for after in all_signs(b, k) if is_turn_of(size, k, b, after)}
    return at

def chosen_signs(size, count, every=None):
    # all lists that are chosen; `every` gives the candidates of a turn
    if every is None:
        every = lambda b, k: (b, with_sign_changed(b, k))
    found, at = set(), {(True,) * count}
    seen = 0
    while at:
        nexts = set()
        for signs in at:
            for after in passes_from(size, signs, every):
                if after == signs:
                    found.add(signs)
                else:
                    nexts.add(after)
        at = nexts
        seen += 1
        assert seen < 1000
    return found

# --- dual_rail/Forests: arms ('lit', leaf, plus) or ('pair', place)

def is_arm(nodes, origin, sign, r, arm):
    asked = asks_for(nodes, r, sign)
    if arm[0] == 'lit':
        return asked == ('literal', arm[1], arm[2])
    return arm[1] < len(origin) and asked == ('pair',) + origin[arm[1]]

def is_pair_of(nodes, origin, p, pair):
    n, sign = p
    x = nodes[n]
    op = {('and', True): 'and', ('or', True): 'or', ('or', False): 'and', ('and', False): 'or'}.get((x[0], sign))
    return pair[0] == op and is_arm(nodes, origin, sign, x[1], pair[1]) and is_arm(nodes, origin, sign, x[2], pair[2])

def is_end_of(nodes, origin, r, sign, end):
    if end[0] == 'const':
        return asks_for(nodes, r, True) == ('value', end[1])
    if end[0] == 'lit':
        return asks_for(nodes, r, True) == ('literal', end[1], end[2])
    if end[0] == 'dynamic':
        return sign is True and asks_for(nodes, r, True) == ('pair',) + origin[end[1]]
    return sign is False and asks_for(nodes, r, False) == ('pair',) + origin[end[1]]

def forest_of(g, signs, origin=None):
    nodes = g['nodes']
    origin = needed(g, signs) if origin is None else origin
    arms = [('lit', l, s) for l in range(g['leaves']) for s in (True, False)] + [('pair', p) for p in range(len(origin))]
    pairs = []
    for n, s in origin:
        x = nodes[n]
        lefts = [a for a in arms if is_arm(nodes, origin, s, x[1], a)]
        rights = [a for a in arms if is_arm(nodes, origin, s, x[2], a)]
        fits = [(op, a, b) for op in ('and', 'or') for a in lefts for b in rights if is_pair_of(nodes, origin, (n, s), (op, a, b))]
        assert len(fits) == 1, (n, s, fits)
        pairs.append(fits[0])
    all_ends = [('const', False), ('const', True)] + [a for a in arms if a[0] == 'lit'] + [
        (w, p) for w in ('dynamic', 'output') for p in range(len(origin))]
    ends = []
    for r, s in zip(g['sinks'], signs):
        fits = [e for e in all_ends if is_end_of(nodes, origin, r, s, e)]
        assert len(fits) == 1, (r, s, fits)
        ends.append(fits[0])
    f = dict(leaves=g['leaves'], origin=origin, pairs=pairs, ends=ends)
    f['uses'] = [arm_uses(f, p) + end_uses(f, p) for p in range(len(pairs))]
    return f

def arm_uses(f, place):
    return sum(1 for pair in f['pairs'] for a in pair[1:] if a == ('pair', place))

def end_uses(f, place):
    return sum(1 for e in f['ends'] if e[0] in ('dynamic', 'output') and e[1] == place)

def pair_values(f, leaf):
    v = []
    for op, a, b in f['pairs']:
        x = [(leaf[c[1]] == c[2]) if c[0] == 'lit' else v[c[1]] for c in (a, b)]
        v.append((x[0] and x[1]) if op == 'and' else (x[0] or x[1]))
    return v

def end_bit(leaf, pair, end):
    if end[0] == 'const':
        return end[1]
    if end[0] == 'lit':
        return leaf[end[1]] == end[2]
    return pair[end[1]] if end[0] == 'dynamic' else not pair[end[1]]

# --- tree_map/Plans: trees ('leaf', gate), ('series', l, r), ('parallel', l, r)

def is_free(f, place):
    return arm_uses(f, place) == 1 and end_uses(f, place) == 0

def is_kept(kept, place):
    return kept[place] if place < len(kept) else False

def roots(kept):
    return [p for p in range(len(kept)) if not kept[p]]

def cell_of(kept, place):
    return sum(1 for k in kept[:place] if not k)

def rail_gate(rail):
    return 2 * rail[1] if rail[2] else 2 * rail[1] + 1

def arm_tree(f, kept, arm):
    if arm[0] == 'lit':
        return ('leaf', rail_gate(arm))
    if not is_kept(kept, arm[1]):
        return ('leaf', 2 * f['leaves'] + cell_of(kept, arm[1]))
    return tree_of(f, kept, arm[1])

def tree_of(f, kept, place):
    op, a, b = f['pairs'][place]
    return ({'and': 'series', 'or': 'parallel'}[op], arm_tree(f, kept, a), arm_tree(f, kept, b))

def width(t):
    return 1 if t[0] == 'leaf' else max(width(t[1]), width(t[2])) if t[0] == 'series' else width(t[1]) + width(t[2])

def height(t):
    return 1 if t[0] == 'leaf' else height(t[1]) + height(t[2]) if t[0] == 'series' else max(height(t[1]), height(t[2]))

def leaves(t):
    return 1 if t[0] == 'leaf' else leaves(t[1]) + leaves(t[2])

def cost(trees):
    return sum(leaves(t) + 5 for t in trees)

def all_kept(f):
    free = [p for p in range(len(f['pairs'])) if is_free(f, p)]
    for bits in product((False, True), repeat=len(free)):
        kept = [False] * len(f['pairs'])
        for p, b in zip(free, bits):
            kept[p] = b
        yield tuple(kept)

def plan_trees(f, kept):
    return [tree_of(f, kept, p) for p in roots(kept)]

def is_within(w, h, t):
    return width(t) <= w and height(t) <= h

# --- tree_map/Covers: parts 'end' or ('join', op, l, r); covers 'single', ('kept', a, b), ('cut', a, b); shapes (height, width)

LEAF = (1, 1)

def joined_shape(op, l, r):
    return (l[0] + r[0], max(l[1], r[1])) if op == 'series' else (max(l[0], r[0]), l[1] + r[1])

def fits(w, h, s):
    return s[1] <= w and s[0] <= h

def shape_of(part, cover):
    if part != 'end' and cover[0] == 'kept':
        return joined_shape(part[1], shape_of(part[2], cover[1]), shape_of(part[3], cover[2]))
    return LEAF

def sum_of(part, cover):
    if part != 'end' and cover[0] == 'kept':
        return sum_of(part[2], cover[1]) + sum_of(part[3], cover[2])
    if part != 'end' and cover[0] == 'cut':
        return 1 + (sum_of(part[2], cover[1]) + sum_of(part[3], cover[2]) + 5)
    return 1

@lru_cache(maxsize=40000)
def all_covers(part):
    if part == 'end':
        return ('single',)
    return tuple((word, a, b) for word in ('kept', 'cut') for a in all_covers(part[2]) for b in all_covers(part[3]))

def is_cover(w, h, part, cover):
    if part == 'end':
        return cover == 'single'
    if cover == 'single':
        return False
    below = is_cover(w, h, part[2], cover[1]) and is_cover(w, h, part[3], cover[2])
    if cover[0] == 'kept':
        return below
    return below and fits(w, h, joined_shape(part[1], shape_of(part[2], cover[1]), shape_of(part[3], cover[2])))

@lru_cache(maxsize=200000)
def sums(w, h, part):
    # IsSum: all sums of each shape, over all covers of both arms
    found = {}
    for cover in all_covers(part):
        if cover[0] == 'kept' and is_cover(w, h, part, cover):
            s = shape_of(part, cover)
            if fits(w, h, s):
                found.setdefault(s, set()).add(sum_of(part, cover))
    return found

def is_least(w, h, part, shape, n):
    return n in sums(w, h, part).get(shape, ()) and all(n <= m for m in sums(w, h, part)[shape])

def is_least_of_all(w, h, part, n):
    all_sums = [m for v in sums(w, h, part).values() for m in v]
    return n in all_sums and all(n <= m for m in all_sums)

def lower(a, b):
    return a[0] < b[0] or a[0] == b[0] and a[1] <= b[1]

@lru_cache(maxsize=200000)
def root_shapes(w, h, part):
    t = sums(w, h, part)
    found = []
    for shape, v in t.items():
        for n in v:
            if is_least(w, h, part, shape, n) and is_least_of_all(w, h, part, n):
                if all(lower(shape, other) for other in t if is_least(w, h, part, other, n)):
                    found.append(shape)
    return found

@lru_cache(maxsize=200000)
def choices(w, h, part):
    # IsChoice: (choice, shape, sum)
    if part == 'end':
        return (('nothing', LEAF, 1),)
    found = [(('keep', s), s, n) for s, v in sums(w, h, part).items() for n in v if is_least(w, h, part, s, n)]
    below = {n for v in sums(w, h, part).values() for n in v if is_least_of_all(w, h, part, n)}
    return tuple(found + [('cutoff', LEAF, 1 + (n + 5)) for n in below])

def earlier(a, b):
    if a[0] == 'keep' and b[0] == 'keep':
        return a[1][0] < b[1][0] or a[1][0] == b[1][0] and a[1][1] < b[1][1]
    return a[0] == 'keep' and b == 'cutoff'

def comes(left, right, other, more):
    return earlier(left, other) or left == other and (earlier(right, more) or right == more)

@lru_cache(maxsize=200000)
def first_choices(w, h, part, decided):
    # AreFirst, as all pairs of choices that are first
    op, l, r = part[1:]
    give = [(a, b) for a, sa, na in choices(w, h, l) for b, sb, nb in choices(w, h, r)
            if joined_shape(op, sa, sb) == decided and is_least(w, h, part, decided, na + nb)]
    return [p for p in give if all(comes(p[0], p[1], q[0], q[1]) for q in give)]

# --- tree_map/LeastPlans

def part_of(f, arm):
    if arm[0] == 'lit' or not is_free(f, arm[1]):
        return 'end'
    return pair_part(f, arm[1])

def pair_part(f, place):
    op, a, b = f['pairs'][place]
    return ('join', {'and': 'series', 'or': 'parallel'}[op], part_of(f, a), part_of(f, b))

def is_taken(f, kept, shapes, arm, choice):
    if arm[0] == 'lit':
        return choice == 'nothing'
    if choice[0] == 'keep':
        return is_kept(kept, arm[1]) and shapes[arm[1]] == choice[1]
    if choice == 'cutoff':
        return not is_kept(kept, arm[1]) and is_free(f, arm[1])
    return not is_free(f, arm[1])

def is_decided(f, w, h, kept, shapes, place, parts):
    part = parts[place]
    if not is_kept(kept, place) and shapes[place] not in root_shapes(w, h, part):
        return False
    op, a, b = f['pairs'][place]
    return any(is_taken(f, kept, shapes, a, left) and is_taken(f, kept, shapes, b, right)
               for left, right in first_choices(w, h, part, shapes[place]))

def is_chosen_plan(f, w, h, kept, shapes, parts):
    return all(is_decided(f, w, h, kept, shapes, p, parts) for p in range(len(f['pairs'])))

def tree_shape(t):
    return (height(t), width(t))

def chosen_plans(f, w, h):
    # all plans, those of least cost, and the chosen ones. The shapes of a chosen plan are those of its trees: by `shape_is` of
    # GivesLeast and `is_taken`, from the ends up, no others are decided
    parts = [pair_part(f, p) for p in range(len(f['pairs']))]
    plans, chosen = [], []
    for kept in all_kept(f):
        trees = plan_trees(f, kept)
        if not all(is_within(w, h, t) for t in trees):
            continue
        plans.append((kept, cost(trees)))
        shapes = [tree_shape(tree_of(f, kept, p)) for p in range(len(f['pairs']))]
        if is_chosen_plan(f, w, h, kept, shapes, parts):
            chosen.append((kept, shapes))
    return plans, chosen, parts

# --- clock_phase

def greatest(ns):
    return max(ns[0], greatest(ns[1:])) if ns else 0

def cells_read(lc, t):
    if t[0] == 'leaf':
        return [] if t[1] < 2 * lc else [t[1] - 2 * lc]
    return cells_read(lc, t[1]) + cells_read(lc, t[2])

def are_levels(lc, trees, levels):
    return len(levels) == len(trees) and all(
        level == 1 + greatest([levels[c] if c < len(levels) else 0 for c in cells_read(lc, t)]) for t, level in zip(trees, levels))

def levels_of(lc, trees):
    levels = []
    for t in trees:
        levels.append(1 + max([levels[c] for c in cells_read(lc, t)], default=0))
    assert are_levels(lc, trees, levels)
    return levels

def clock_of(phases, levels, level):
    return 1 + max(level - 1, 0) * phases // levels if levels else 1

# --- domino_cell, latch_bind: devices (kind, drain, gate, source)

def inner_count(t):
    return 0 if t[0] == 'leaf' else (1 if t[0] == 'series' else 0) + inner_count(t[1]) + inner_count(t[2])

def spell(kind, inner, t, top, bottom, k):
    if t[0] == 'leaf':
        return [(kind, top, t[1], bottom)]
    if t[0] == 'series':
        return spell(kind, inner, t[1], top, inner(k), k + 1) + spell(kind, inner, t[2], inner(k), bottom, k + 1 + inner_count(t[1]))
    return spell(kind, inner, t[1], top, bottom, k) + spell(kind, inner, t[2], top, bottom, k + inner_count(t[1]))

def inverter(vdd, vss, gate, out):
    return [('pch', out, gate, vdd), ('nch', out, gate, vss)]

def cell(clock, k, t):
    d, z, f = 'd%d' % k, 'z%d' % k, 'f%d' % k
    return [('pch', d, 'ck%d' % clock, 'vdd'), ('pkeep', d, z, 'vdd')] + spell('nch', lambda j: 't%d_%d' % (k, j), t, d, f, 0) + [
        ('nch', f, 'ck%d' % clock, 'vss')] + inverter('vdd', 'vss', d, z)

def named_latch(j, start):
    m, q, x = 'm%d' % j, 'q%d' % j, 'x%d' % j
    return [('pch', m, 'lmb', m + 'p'), ('pch', m + 'p', x, 'vdd'), ('nch', m, 'lm', m + 'n'), ('nch', m + 'n', x, 'vss'),
            ('pch', q, 'lsb', q + 'p'), ('pch', q + 'p', m, 'vdd'), ('nch', q, 'ls', q + 'n'), ('nch', q + 'n', m, 'vss'),
            ('pch', q, 'rsb', 'vdd') if start else ('nch', q, 'rs', 'vss')]

# --- synth_flow

def escaped(name):
    out = ''
    for c in name:
        b = ord(c)
        out += c if 97 <= b <= 122 or 48 <= b <= 57 else '_' + '0123456789abcdef'[b // 16] + '0123456789abcdef'[b % 16]
    return out

def pins_of(net):
    return ['i_' + escaped(net.names[s]) for s in range(net.inputs)]

def outs_of(net):
    return ['o_' + escaped(net.names[s]) for s in net.outputs]

def own_net(pins, leaf):
    return pins[leaf] if leaf < len(pins) else 'q%d' % (leaf - len(pins))

def named_gate(pins, lc, g):
    if g < 2 * lc:
        return own_net(pins, g // 2) if g % 2 == 0 else 'c%d' % (g // 2)
    return 'z%d' % (g - 2 * lc)

def map_tree(f, t):
    return ('leaf', f(t[1])) if t[0] == 'leaf' else (t[0], map_tree(f, t[1]), map_tree(f, t[2]))

def sink_gate(pins, end):
    if end[0] == 'fixed':
        return 'vss' if end[1] else 'vdd'
    if end[0] == 'ofleaf':
        return 'c%d' % end[1] if end[2] else own_net(pins, end[1])
    return ('d%d' if end[0] == 'ofdynamic' else 'z%d') % end[1]

def reads(g, t):
    return t[1] == g if t[0] == 'leaf' else reads(g, t[1]) or reads(g, t[2])

def sink_nets(outs, starts):
    return list(outs) + ['x%d' % j for j in range(len(starts))]

def named_devices(pins, outs, starts, cells, complements, ends):
    lc = len(pins) + len(starts)
    ds = []
    for k, (t, clock) in enumerate(cells):
        ds += cell(clock, k, map_tree(lambda g: named_gate(pins, lc, g), t))
    for leaf in complements:
        ds += inverter('vdd', 'vss', own_net(pins, leaf), 'c%d' % leaf)
    for j, s in enumerate(starts):
        ds += named_latch(j, s)
    for out, end in zip(sink_nets(outs, starts), ends):
        ds += inverter('vdd', 'vss', sink_gate(pins, end), out)
    return ds

def leading_ports(clocks):
    return ['vdd', 'vss'] + ['ck1', 'ck2', 'ck3', 'ck4'][:clocks] + ['lm', 'lmb', 'ls', 'lsb', 'rs', 'rsb']

def with_devices(c, named):
    nets, number, devices = list(c['nets']), {n: i for i, n in reversed(list(enumerate(c['nets'])))}, list(c['devices'])
    def of(n):
        if n not in number:
            number[n] = len(nets)
            nets.append(n)
        return number[n]
    for kind, d, g, s in named:
        devices.append((kind, of(d), of(g), of(s)))
    return dict(c, nets=nets, devices=devices)

def new_circuit(name, phases, clocks, pins, outs):
    ports = leading_ports(clocks) + pins + outs
    return dict(name=name, phases=phases, ports=len(ports), nets=ports, devices=[])

def deck_circuit(net, phases, trees, levels, signs, ends):
    pins, outs, starts = pins_of(net), outs_of(net), [i for s, i in net.latches]
    cells = [(t, clock_of(phases, greatest(levels), l)) for t, l in zip(trees, levels)]
    complements = [leaf for leaf in range(leaf_count(net))
                   if any(reads(2 * leaf + 1, t) for t, c in cells) or any(e == ('ofleaf', leaf, True) for e in ends)]
    ph = list(zip(sink_nets(outs, starts), signs))
    return with_devices(new_circuit(escaped(net.name), ph, phases, pins, outs), named_devices(pins, outs, starts, cells, complements, ends))

def end_at_cell(kept, e):
    if e[0] == 'const':
        return ('fixed', e[1])
    if e[0] == 'lit':
        return ('ofleaf', e[1], e[2])
    return ('ofdynamic' if e[0] == 'dynamic' else 'ofoutput', cell_of(kept, e[1]))

def has_sign(sign, end):
    return end[0] in ('fixed', 'ofleaf') or (end[0] == 'ofdynamic' and sign) or (end[0] == 'ofoutput' and not sign)

def is_end_in(lc, cells, end):
    return end[0] == 'fixed' or (end[0] == 'ofleaf' and end[1] < lc) or (end[0] in ('ofdynamic', 'ofoutput') and end[1] < cells)

def each_leaf(p, t):
    return p(t[1]) if t[0] == 'leaf' else each_leaf(p, t[1]) and each_leaf(p, t[2])

def is_domino_deck_by(net, w, h, phases, circuit, trees, levels, signs, ends):
    lc = leaf_count(net)
    return (1 <= phases <= 4 and all(is_within(w, h, t) for t in trees) and are_levels(lc, trees, levels)
            and all(each_leaf(lambda g: g < 2 * lc + k, t) for k, t in enumerate(trees))
            and len(signs) == len(sink_signals(net)) and len(signs) == len(ends) and all(has_sign(s, e) for s, e in zip(signs, ends))
            and all(is_end_in(lc, len(trees), e) for e in ends)
            and circuit == deck_circuit(net, phases, trees, levels, signs, ends))

def chosen_deck(net, w, h, phases, small):
    # IsChosenDeck: all circuits that are one
    g = gates_of(net)
    size = Sizes(g)
    found = []
    for signs in chosen_signs(size, len(g['sinks'])):
        f = forest_of(g, signs)
        plans, chosen, parts = chosen_plans(f, w, h)
        for kept, shapes in chosen:
            trees = plan_trees(f, kept)
            levels = levels_of(leaf_count(net), trees)
            ends = [end_at_cell(kept, e) for e in f['ends']]
            found.append((deck_circuit(net, phases, trees, levels, signs, ends), trees, levels, signs, ends))
    return found

# --- spice_text/Text

def deck_line(first, others):
    return first + ''.join(' ' + w for w in others) + '\n'

def eights(xs):
    if not xs:
        return []
    if len(xs) < 8:
        return [xs]
    return [xs[:8]] + eights(xs[8:])

def plus_lines(names):
    return ''.join(deck_line('+', g) for g in eights(names))

def text_with(c, leading, groups):
    n = lambda i: c['nets'][i]
    bulk = {'nch': 'vss', 'pch': 'vdd', 'pkeep': 'vdd'}
    return ('* domsyn deck 1\n' + ''.join(deck_line('*', ['phase', net, '+' if s else '-']) for net, s in c['phases'])
            + deck_line('.subckt', [c['name']] + leading) + ''.join(plus_lines(g) for g in groups)
            + ''.join(deck_line('m%d' % i, [n(d), n(g), n(s), bulk[k], k]) for i, (k, d, g, s) in enumerate(c['devices']))
            + deck_line('.ends', [c['name']]))

def has_roles(ports):
    # all (clocks, pins, outs) with HasRoles ports clocks pins outs
    found = []
    for clocks in range(1, 5):
        lead = leading_ports(clocks)
        if ports[:len(lead)] != lead:
            continue
        rest = ports[len(lead):]
        for cut in range(len(rest) + 1):
            if all(p.startswith('i_') for p in rest[:cut]) and all(p.startswith('o_') for p in rest[cut:]):
                found.append((clocks, rest[:cut], rest[cut:]))
    return found

def written(c):
    ports = c['nets'][:c['ports']]
    roles = has_roles(ports)
    if roles:
        texts = {text_with(c, leading_ports(k), [p, o]) for k, p, o in roles}
    else:
        texts = {text_with(c, [], [ports])}
    assert len(texts) == 1
    return texts.pop()
