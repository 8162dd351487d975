# cases.py: doubtful points, each with what the rules say worked out by hand: the definitions' text, the rules' and another program's (PLAIN=path).
import os, subprocess, tempfile
import definitions as D
import rules as R
from make_networks import Net, blif
PLAIN = os.environ['PLAIN']


def cards(net, w, h, phases=1):
    found = D.chosen_deck(net, w, h, phases, True)
    texts = {D.written(found[0][0]), R.Deck(net, w, h, phases).text, R.Deck(net, w, h, phases, True).text}
    with tempfile.TemporaryDirectory() as room:
        open(room + '/n', 'wb').write(blif(net))
        texts.add(subprocess.run([PLAIN, 'synth', room + '/n', '--width=%d' % w, '--height=%d' % h, '--phases=%d' % phases], capture_output=True).stdout.decode('latin-1'))
    if len(found) != 1 or len(texts) != 1:
        print('DIFFERS', net, texts)
    return [l.split()[1:4] for l in texts.pop().split('\n') if l.startswith('m') and l.endswith('nch')], found[0]


def case(what, right):
    print(('as told: ' if right else 'DIFFERS ') + what, flush=True)


# one cut is least; it can leave the root (1,4), (2,3) or (2,4): the height counts first
net = Net('ties', list('abcdefglry'), 7, [9], [], [([0, 1, 2, 3], True, ['11--', '--11']), ([4, 5, 6], True, ['1--', '-1-', '--1']), ([7, 8], True, ['1-', '-1'])])
c, f = cards(net, 4, 2)
case('least height before least width at a root', [x for x in c if x[0] == 'd1'] == [['d1', 'z0', 'f1'], ['d1', 'i_e', 'f1'], ['d1', 'i_f', 'f1'], ['d1', 'i_g', 'f1']])
# the dual: (4,1), (3,2) or (4,2): the least height is 3, so the right part is cut
net = Net('ties', list('abcdefglry'), 7, [9], [], [([0, 1, 2, 3], False, ['00--', '--00']), ([4, 5, 6], True, ['111']), ([7, 8], True, ['11'])])
c, f = cards(net, 2, 4)
case('the dual of it', sorted(D.tree_shape(t) for t in f[1]) == [(3, 1), (3, 2)])
# both arms of a pair name one pair: two uses, so both edges are cut, and there is one cell for it
net = Net('both', list('abfg'), 2, [3], [], [([0, 1], True, ['11']), ([2, 2], True, ['1-', '-1'])])
c, f = cards(net, 4, 4)
case('both arms name one pair', [x for x in c if x[0] == 'd1'] == [['d1', 'z0', 'f1'], ['d1', 'z0', 'f1']])
# a pair that one pair reads and a sink too: its edge isn't free
net = Net('two', list('abcfg'), 3, [3, 4], [], [([0, 1], True, ['11']), ([3, 2], True, ['11'])])
c, f = cards(net, 4, 4)
case('a sink and a pair read one pair', [x[1] for x in c if x[0] in ('d1', 't1_0')] == ['z0', 'i_c'])
# constants are items of the balanced list: a, 1, b, c is (a 1) (b c), not (a b) c
net = Net('const', list('abckf'), 3, [4], [], [([], True, ['']), ([0, 3, 1, 2], True, ['1111'])])
c, f = cards(net, 4, 4)
case('a constant among the items', f[1] == [('series', ('leaf', 0), ('series', ('leaf', 2), ('leaf', 4)))])
# f, its opposite and f again: all plus needs both signs of one node; changing f alone lowers nothing, changing g does
net = Net('sign', list('abfgh'), 2, [2, 3, 4], [], [([0, 1], True, ['11']), ([2], True, ['0']), ([3], False, ['1'])])
c, f = cards(net, 4, 4)
case('three sinks of one node share one pair', len(f[1]) == 1 and f[3] == (True, False, True))
# a clock by the greatest level of the whole deck, rounded down: levels 1, 2, 3 on two clocks are ck1, ck1, ck2
net = Net('clk', list('abcdefgh') + ['y'], 8, [8], [], [(list(range(8)), True, ['1' * 8])])
c, f = cards(net, 2, 2, 2)
case('three levels on two clocks', f[2] == [1, 1, 2, 1, 1, 2, 3] and [x[1] for x in c if x[2] == 'vss' and x[0][0] == 'f'] == ['ck1', 'ck1', 'ck1', 'ck1', 'ck1', 'ck1', 'ck2'])
