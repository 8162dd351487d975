# plants.py [WORD ..]: changes planted in the hand copies, one at a time, each in a copy of this folder; the comparison must tell each.
import os, shutil, subprocess, sys, tempfile, time

HERE = os.path.dirname(os.path.abspath(__file__))
D, RD, CD = 'definitions.py', 'run_definitions.py', 'compare_decks.py'
PLANTS = [
    ('halves: the smaller part first', D, 'return (m + 1) // 2', 'return m // 2', 'compare_networks.py 9 60'),
    ('nodes: each row with its Or', D, "    return inside_nodes(of, table, way, t) + above_nodes(of, table, way, t)",
     "    return (rows_nodes(of, table, ('L',) + way, t[1]) + rows_nodes(of, table, ('R',) + way, t[2]) + or_nodes(of, table, way, t[1], t[2])"
     " if t[0] == 'or' else row_nodes(of, table, way, t))", 'compare_networks.py 9 60'),
    ('folding: a constant 1 stays in an And', D, "    if a == ('fixed', True):\n        return b\n    if b == ('fixed', True):\n        return a\n    return ('made', name)\n\ndef folded_or",
     "    return ('made', name)\n\ndef folded_or", 'compare_networks.py 9 60'),
    ('pairs: minus before plus', D, 'return sorted(forced, key=lambda p: (p[0], not p[1]))', 'return sorted(forced)', 'compare_networks.py 9 80'),
    ('ends: a minus sink from the dynamic net', D, "return sign is True and asks_for(nodes, r, True)", "return asks_for(nodes, r, True)", 'compare_networks.py 9 60'),
    ('signs: changed where that is no worse', D, 'return size(with_sign_changed(signs, k)) < size(signs)', 'return size(with_sign_changed(signs, k)) <= size(signs)',
     'compare_networks.py 9 60'),
    ('free: an edge to a pair that a sink uses too', D, 'return arm_uses(f, place) == 1 and end_uses(f, place) == 0', 'return arm_uses(f, place) == 1', 'compare_forests.py 9 40'),
    ('cost: a cut tree costs 4', D, 'sum_of(part[3], cover[2]) + 5)', 'sum_of(part[3], cover[2]) + 4)', 'compare_forests.py 9 40'),
    ('ties: cut first', D, "return a[0] == 'keep' and b == 'cutoff'", "return a == 'cutoff' and b[0] == 'keep'", 'compare_forests.py 9 120'),
    ('ties: the width before the height', D, 'return a[0] < b[0] or a[0] == b[0] and a[1] <= b[1]', 'return a[1] < b[1] or a[1] == b[1] and a[0] <= b[0]', 'compare_forests.py 9 400'),
    ('ties: the right child first', D, 'return earlier(left, other) or left == other and (earlier(right, more) or right == more)',
     'return earlier(right, more) or right == more and (earlier(left, other) or left == other)', 'compare_forests.py 9 200'),
    ('clock: rounded up', D, 'return 1 + max(level - 1, 0) * phases // levels', 'return 1 + -(-max(level - 1, 0) * phases // levels)', 'compare_yardstick.py 9 200'),
    ('spelling: the left part takes its inner net first', D,
     "return spell(kind, inner, t[1], top, inner(k), k + 1) + spell(kind, inner, t[2], inner(k), bottom, k + 1 + inner_count(t[1]))",
     "m = k + inner_count(t[1])\n        return spell(kind, inner, t[1], top, inner(m), k) + spell(kind, inner, t[2], inner(m), bottom, m + 1)", 'compare_networks.py 9 60'),
    ('latch: reset by rs alone', D, "('pch', q, 'rsb', 'vdd') if start else ('nch', q, 'rs', 'vss')", "('nch', q, 'rs', 'vss')", 'compare_networks.py 9 60'),
    ('complements: of trees alone', D, "if any(reads(2 * leaf + 1, t) for t, c in cells) or any(e == ('ofleaf', leaf, True) for e in ends)]",
     "if any(reads(2 * leaf + 1, t) for t, c in cells)]", 'compare_networks.py 9 60'),
    ('text: nine ports on a line', D, 'if len(xs) < 8:\n        return [xs]\n    return [xs[:8]] + eights(xs[8:])', 'if len(xs) < 9:\n        return [xs]\n    return [xs[:9]] + eights(xs[9:])',
     'compare_texts.py 9 300'),
    ('deck: a tree of a greater width', D, 'return width(t) <= w and', 'return width(t) <= w + 1 and', 'compare_decks.py 9 400'),
    ('deck: any sign at a sink', D, "or (end[0] == 'ofoutput' and not sign)", "or end[0] == 'ofoutput'", 'compare_decks.py 9 300'),
    ('targets: the first rule without its second half', RD, 'if k == weak and self.is_source(s) and all(v == values[s] for v in at):', 'if k == weak and self.is_source(s):', 'compare_runs.py 2 60 6 2'),
    ('runs: capture with clocks to rise', RD, "(place != 'capture' or self.risen == self.c.clocks)", 'True', 'compare_runs.py 9 6 4 2'),
    ('runs: a later clock at rest alone', RD, "if self.place == 'evaluation' and self.risen < self.c.clocks:", "if self.place == 'evaluation' and self.risen < self.c.clocks and rests:",
     'compare_runs.py 9 6 4 2'),
    ('contests: overpowered whatever gates the keeper', RD, 'if values[g] != 0 or (1, False)', 'if (1, False)', 'compare_runs.py 9 60 4 2'),
    ('joins: from power on', RD, "if self.place != 'reset' or rests:", 'if True:', 'compare_runs.py 9 6 4 2'),
]


def main(words):
    for name, file, old, new, script in PLANTS:
        if words and not any(w in name for w in words):
            continue
        with tempfile.TemporaryDirectory() as room:
            for f in os.listdir(HERE):
                if f.endswith('.py'):
                    shutil.copy(os.path.join(HERE, f), room)
            text = open(os.path.join(room, file)).read()
            if text.count(old) != 1:
                print('PLANT NOT THERE', name, text.count(old), flush=True)
                continue
            open(os.path.join(room, file), 'w').write(text.replace(old, new))
            p = subprocess.Popen([sys.executable] + script.split(), cwd=room, stdout=subprocess.PIPE, stderr=subprocess.STDOUT, text=True)
            told = None
            for line in p.stdout:
                if line.startswith('DIFFERS') or 'Error' in line:
                    told = line.strip()[:60]
                    break
            p.kill()
            p.wait()
            print(('told      ' if told else 'NOT TOLD  ') + name + (': ' + told if told else ''), flush=True)


if __name__ == '__main__':
    main(sys.argv[1:])
