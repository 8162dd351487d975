# compare_forests.py SEED COUNT: forests that no network need have given, with many free edges: plans, least plans and ties.
import random, sys, time
from collections import Counter
import definitions as D
import rules as R
from compare_networks import compare_plans, differs


def draw_tree(r, leaves, n, pairs):
    # a tree of n pairs over literals, children before parents: ties between lower and narrower shapes
    if n == 0:
        return ('lit', r.randrange(leaves), r.random() < 0.7)
    left = r.randint(0, n - 1)
    a = draw_tree(r, leaves, left, pairs)
    b = draw_tree(r, leaves, n - 1 - left, pairs)
    pairs.append((r.choice(['and', 'or']), a, b))
    return ('pair', len(pairs) - 1)


def draw(r):
    leaves = r.randint(1, 4)
    pairs, loose = [], []
    most = r.randint(1, 8)
    style = r.choice(['chain', 'mixed', 'bushy', 'alike', 'tree', 'tree'])
    if style == 'tree':
        most = r.randint(5, 8)
        loose.append(draw_tree(r, leaves, most, pairs)[1])
    word = r.choice(['and', 'or'])
    lit = lambda: ('lit', r.randrange(leaves), r.random() < 0.7)
    while len(pairs) < most:
        if style == 'chain':
            a = ('pair', loose.pop()) if loose else lit()
            b = lit()
            if r.random() < 0.5:
                a, b = b, a
        elif style == 'bushy':
            a = ('pair', loose.pop(0)) if len(loose) >= 2 or loose and r.random() < 0.3 else lit()
            b = ('pair', loose.pop(0)) if loose and r.random() < 0.7 else lit()
        else:
            pick = lambda: ('pair', loose.pop(r.randrange(len(loose)))) if loose and r.random() < 0.6 else (
                ('pair', r.randrange(len(pairs))) if pairs and r.random() < 0.08 else lit())
            a, b = pick(), pick()
        w = word if style == 'alike' else r.choice(['and', 'or'])
        pairs.append((w, a, b))
        loose.append(len(pairs) - 1)
    ends = [('dynamic' if r.random() < 0.6 else 'output', p) for p in loose]
    for _ in range(r.choice([0, 0, 1])):
        ends.append(r.choice([('const', True), lit(), ('dynamic', r.randrange(len(pairs)))]))
    f = dict(leaves=leaves, origin=[(i, True) for i in range(len(pairs))], pairs=pairs, ends=ends)
    f['uses'] = [D.arm_uses(f, p) + D.end_uses(f, p) for p in range(len(pairs))]
    uses = {i: [] for i in range(len(pairs))}
    for i, p in enumerate(pairs):
        for x in p[1:]:
            if x[0] == 'pair':
                uses[x[1]].append(i)
    for e in ends:
        if e[0] in ('dynamic', 'output'):
            uses[e[1]].append(None)
    return f, pairs, uses


def main(seed, count):
    r = random.Random(seed)
    n = Counter()
    for _ in range(count):
        f, pairs, uses = draw(r)
        if len(R.free_places(uses)) > 7:
            n['too many free edges'] += 1
            continue
        n['forests'] += 1
        bounds = {(2, 2), (r.randint(2, 3), r.randint(2, 3)), (r.randint(3, 5), r.randint(2, 3)), (r.randint(2, 8), r.randint(2, 6))}
        for w, h in bounds:
            compare_plans(n, 'forest', f, pairs, uses, w, h)
            if r.random() < 0.1:
                # other shapes than those of the trees are decided nowhere
                plans, chosen, parts = D.chosen_plans(f, w, h)
                kept, shapes = chosen[0]
                p = r.randrange(len(shapes))
                other = list(shapes)
                other[p] = (max(1, shapes[p][0] + r.choice([-1, 0, 1])), max(1, shapes[p][1] + r.choice([-1, 1])))
                if other != shapes and D.is_chosen_plan(f, w, h, kept, other, parts):
                    differs('other shapes', f, w, h, kept, other)
                n['other shapes'] += 1
    return n


if __name__ == '__main__':
    begun = time.process_time()
    n = main(int(sys.argv[1]), int(sys.argv[2]))
    print('forests seed', sys.argv[1], dict(n), '%.0f s' % (time.process_time() - begun), flush=True)
