# compare_yardstick.py SEED COUNT [large]: texts of `synth` of another program (PLAIN=path) beside the rules' text and, where the network is
# small, the definitions'. Each network is asked for with random bounds and clocks.
import os, random, subprocess, sys, tempfile, time
from collections import Counter
import definitions as D
import rules as R
from make_networks import blif, draw_network
PLAIN = os.environ['PLAIN']


def main(seed, count, large):
    r = random.Random(seed)
    n = Counter()
    with tempfile.TemporaryDirectory() as room:
        path = os.path.join(room, 'n.blif')
        for _ in range(count):
            if large:
                net = draw_network(r, 8, 4, r.randint(5, 40), 6, 8, distinct=True, full=True)
            else:
                net = draw_network(r, distinct=r.random() < 0.2)
            w, h, phases = r.randint(2, 8), r.randint(2, 6), r.randint(1, 4)
            open(path, 'wb').write(blif(net))
            words = [PLAIN, 'synth', path]
            if (w, h, phases) != (4, 4, 1) or r.random() < 0.5:
                words += ['--width', str(w), '--height', str(h), '--phases', str(phases)]
            p = subprocess.run(words, capture_output=True)
            mine = R.Deck(net, w, h, phases).text.encode('latin-1')
            if p.returncode != 0 or p.stdout != mine or p.stderr:
                print('DIFFERS yardstick', net, w, h, phases, p.returncode, p.stderr, '\n', p.stdout.decode('latin-1'), '\n', mine.decode('latin-1'), flush=True)
            n['texts'] += 1
            n['cells'] += mine.count(b'pkeep')
            n['minus phases'] += mine.count(b' -\n')
            if not large:
                b = R.Builder(net)
                o, pairs, uses, ends = R.forest(b, R.choose_signs(b))
                if len(R.free_places(uses)) <= 5 and r.random() < 0.3:
                    decks = D.chosen_deck(net, w, h, phases, True)
                    if len(decks) != 1 or D.written(decks[0][0]).encode('latin-1') != p.stdout:
                        print('DIFFERS definitions', net, w, h, phases, len(decks), flush=True)
                    n['texts of the definitions'] += 1
    return n


if __name__ == '__main__':
    begun = time.process_time()
    n = main(int(sys.argv[1]), int(sys.argv[2]), len(sys.argv) > 3)
    print('yardstick seed', sys.argv[1], sys.argv[3:], dict(n), '%.0f s' % (time.process_time() - begun), flush=True)
