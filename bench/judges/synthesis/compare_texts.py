# compare_texts.py SEED COUNT: texts of circuits (ports in the order of roles or not, none to twenty names), as the definition and as the rules write
# them, and hostile texts of decks: the circuit, or the line and kind of the one fault, by the definitions of deck and by a reader with a state.
import random, sys, time
from collections import Counter
import definitions as D

KINDS = ['ControlByte', 'UnknownCard', 'BadCard', 'UnknownDevice', 'NoSubckt', 'SecondSubckt', 'NotClosed', 'DuplicatePort', 'TooMany']


# ---- deck/DeckText, DeckCards, DeckFaults; most_devices and most_ports are scaled down

def lines_of(text):
    ls = text.split('\n')
    if ls[-1] == '':
        ls.pop()
    return [l[:-1] if l.endswith('\r') else l for l in ls]

def words(line):
    return [w for w in line.replace('\t', ' ').split(' ') if w]

def read_line(l):
    l = l.lstrip(' \t')
    return ''.join(c.lower() if 'A' <= c <= 'Z' else c for c in l)

def first_word(ws):
    return ws[0] if ws else ''

def through_end(ls):
    for i, l in enumerate(ls):
        if first_word(words(l)) == '.end':
            return ls[:i + 1]
    return ls

def deck_lines(text):
    return through_end([read_line(l) for l in lines_of(text)])

def is_of_card(l):
    return l != '' and l[0] != '*'

def continues(l):
    return l != '' and l[0] == '+'

def added(ls):
    out = []
    for l in ls:
        if not continues(l):
            break
        out += words(l[1:])
    return out

def numbered_cards(nl):
    return [(n, words(l) + added([x for m, x in nl[i + 1:]])) for i, (n, l) in enumerate(nl) if not continues(l)]

def is_control(c):
    return ord(c) < 32 or ord(c) == 127

def is_device(ws):
    return first_word(ws)[:1] == 'm'

def in_form(ws):
    if is_device(ws):
        return len(ws) > 5
    if ws[0] == '.subckt':
        return len(ws) > 1 and not any('=' in w for w in ws)
    if ws[0] == '.ends':
        return len(ws) < 3
    return True

def is_open(before):
    for ws in reversed(before):
        if first_word(ws) in ('.subckt', '.ends'):
            return ws[0] == '.subckt'
    return False

def card_fault(kind, before, ws, most_devices, most_ports):
    w = first_word(ws)
    known = is_device(ws) or w in ('.subckt', '.ends', '.end', '.model')
    return {'ControlByte': lambda: any(is_control(c) for x in ws for c in x),
            'UnknownCard': lambda: not known,
            'BadCard': lambda: known and not in_form(ws),
            'UnknownDevice': lambda: is_device(ws) and len(ws) > 5 and ws[5] not in ('nch', 'pch', 'pkeep'),
            'NoSubckt': lambda: (is_device(ws) or w == '.ends') and not is_open(before),
            'SecondSubckt': lambda: w == '.subckt' and any(first_word(x) == '.subckt' for x in before),
            'NotClosed': lambda: False,
            'DuplicatePort': lambda: w == '.subckt' and len(set(ws[2:])) < len(ws[2:]),
            'TooMany': lambda: is_device(ws) and sum(map(is_device, before)) == most_devices or w == '.subckt' and len(ws[2:]) > most_ports}[kind]()

def all_faults(text, md, mp):
    nl = [(i + 1, l) for i, l in enumerate(deck_lines(text)) if is_of_card(l)]
    cards = numbered_cards(nl)
    found = [(n, k) for i, (n, ws) in enumerate(cards) for k, kind in enumerate(KINDS) if card_fault(kind, [x for m, x in cards[:i]], ws, md, mp)]
    for i, (n, l) in enumerate(nl):
        if continues(l) and not numbered_cards(nl[:i]):
            found.append((n, 2))
    ls = deck_lines(text)
    end = len(ls) if any(first_word(words(l)) == '.end' for l in ls) else len(ls) + 1
    ws = [x for m, x in cards]
    if not any(first_word(x) == '.subckt' for x in ws):
        found.append((end, 4))
    if is_open(ws):
        found.append((end, 6))
    return found

def circuit_of(text, md, mp):
    # IsDeckOf: the circuit, or None
    ls = deck_lines(text)
    cl = [l for l in ls if is_of_card(l)]
    if cl and continues(cl[0]):
        return None
    cards = [ws for n, ws in numbered_cards([(0, l) for l in cl])]
    if any(is_control(c) for ws in cards for w in ws for c in w):
        return None
    order = [ws for ws in cards if first_word(ws) not in ('.model', '.end')]
    if len(order) < 2 or order[0][0] != '.subckt' or len(order[0]) < 2 or order[-1][0] != '.ends' or len(order[-1]) > 2:
        return None
    name, ports, dev = order[0][1], order[0][2:], order[1:-1]
    if any('=' in w for w in [name] + ports) or len(set(ports)) < len(ports) or len(ports) > mp or len(dev) > md:
        return None
    for ws in dev:
        if ws[0][0] != 'm' or len(ws) < 6 or ws[5] not in ('nch', 'pch', 'pkeep'):
            return None
    phases = []
    for l in ls:
        w = words(l)
        if len(w) == 4 and w[0] == '*' and w[1] == 'phase' and not any(is_control(c) for c in w[2]) and w[3] in ('+', '-'):
            phases.append((w[2], w[3] == '+'))
    return D.with_devices(dict(name=name, phases=phases, ports=len(ports), nets=ports, devices=[]), [(w[5], w[1], w[2], w[3]) for w in dev])


# ---- the rules: a reader with a state

def read(text, md, mp):
    ls = text.split('\n')
    ls = ls[:-1] if ls[-1] == '' else ls
    phases, cards, ended, at = [], [], False, len(ls) + 1
    stray = None
    for i, l in enumerate(ls, 1):
        if l[-1:] == '\r':
            l = l[:-1]
        while l[:1] in (' ', '\t') and l:
            l = l[1:]
        l = l.translate({c: c + 32 for c in range(65, 91)})
        parts = [p for chunk in l.split('\t') for p in chunk.split(' ') if p]
        if not parts:
            continue
        if l[0] == '*':
            if len(parts) == 4 and parts[:2] == ['*', 'phase'] and parts[3] in '+-' and all(31 < ord(c) != 127 for c in parts[2]):
                phases.append((parts[2], parts[3] == '+'))
        elif l[0] == '+':
            if cards:
                cards[-1][1].extend(p for chunk in l[1:].split('\t') for p in chunk.split(' ') if p)
            elif stray is None:
                stray = i
        else:
            cards.append((i, list(parts)))
            if parts[0] == '.end':
                at = i
                break
    faults = [] if stray is None else [(stray, 3)]
    opened = seen = False
    devices, circuit = [], None
    for line, w in cards:
        f = set()
        if any(ord(c) < 32 or ord(c) == 127 for x in w for c in x):
            f.add(1)
        if w[0][0] == 'm':
            if len(w) < 6:
                f.add(3)
            elif w[5] not in ('nch', 'pch', 'pkeep'):
                f.add(4)
            if not opened:
                f.add(5)
            if len(devices) == md:
                f.add(9)
            devices.append(w)
        elif w[0] == '.subckt':
            if len(w) == 1 or any('=' in x for x in w):
                f.add(3)
            if seen:
                f.add(6)
            if len(set(w[2:])) != len(w) - min(len(w), 2):
                f.add(8)
            if len(w) - 2 > mp:
                f.add(9)
            opened = seen = True
            circuit = w
        elif w[0] == '.ends':
            if len(w) > 2:
                f.add(3)
            if not opened:
                f.add(5)
            opened = False
        elif w[0] not in ('.end', '.model'):
            f.add(2)
        if f:
            faults.append((line, min(f)))
    if not seen:
        faults.append((at, 5))
    if opened:
        faults.append((at, 7))
    if faults:
        return min(faults), None
    nets = list(circuit[2:])
    out = []
    for w in devices:
        for x in w[1:4]:
            if x not in nets:
                nets.append(x)
        out.append((w[5],) + tuple(nets.index(x) for x in w[1:4]))
    return None, dict(name=circuit[1], phases=phases, ports=len(circuit) - 2, nets=nets, devices=out)


def write(c):
    # the rules' writer
    out = ['* domsyn deck 1'] + ['* phase %s %s' % (p, '-+'[s]) for p, s in c['phases']]
    ports = c['nets'][:c['ports']]
    k = None
    for n in range(1, 5):
        lead = ['vdd', 'vss'] + ['ck%d' % i for i in range(1, n + 1)] + 'lm lmb ls lsb rs rsb'.split()
        tail = ports[len(lead):]
        if ports[:len(lead)] == lead and [p[:2] for p in tail] == sorted(p[:2] for p in tail) and all(p[:2] in ('i_', 'o_') for p in tail):
            k = len(lead)
    if k is None:
        out.append('.subckt ' + c['name'])
        groups = [ports]
    else:
        out.append(' '.join(['.subckt', c['name']] + ports[:k]))
        groups = [[p for p in ports[k:] if p[0] == 'i'], [p for p in ports[k:] if p[0] == 'o']]
    for g in groups:
        while g:
            out.append('+ ' + ' '.join(g[:8]))
            g = g[8:]
    for i, (m, d, g, s) in enumerate(c['devices']):
        out.append(' '.join(['m%d' % i, c['nets'][d], c['nets'][g], c['nets'][s], 'vss' if m == 'nch' else 'vdd', m]))
    return '\n'.join(out + ['.ends ' + c['name']]) + '\n'


def draw_circuit(r):
    clocks = r.randint(0, 5)
    lead = ['vdd', 'vss'] + ['ck%d' % i for i in range(1, clocks + 1)] + 'lm lmb ls lsb rs rsb'.split()
    pins = ['i_' + str(i) for i in range(r.choice([0, 1, 2, 7, 8, 9, 16, 17, 20]))]
    outs = ['o_' + str(i) for i in range(r.choice([0, 1, 2, 7, 8, 9, 16]))]
    ports = lead + pins + outs
    way = r.random()
    if way < 0.2 and ports:
        i, j = r.randrange(len(ports)), r.randrange(len(ports))
        ports[i], ports[j] = ports[j], ports[i]
    elif way < 0.3:
        ports = ports[:r.randint(0, len(ports))]
    elif way < 0.35:
        ports = ports + ['i_last']
    nets = list(ports) + ['d0', 'z0', 'n"', '\xe9', '=']
    c = dict(name=r.choice(['top', 'a_2e', '0', '\xe9']), phases=[(r.choice(nets[:1] + ['x0', 'o_f']), r.random() < 0.5) for _ in range(r.randint(0, 3))],
             ports=len(ports), nets=ports, devices=[])
    return D.with_devices(c, [(r.choice(['nch', 'pch', 'pkeep']),) + tuple(r.choice(nets) for _ in range(3)) for _ in range(r.randint(0, 6))])


BITS = ['.subckt', '.SUBCKT', '.ends', '.Ends', '.end', '.END', '.model', 'm0', 'M', 'mx', 'x1', 'r', '*', '* phase', '*phase', '+', '+a', '+ b', 'a', 'b', 'A',
        'nch', 'PCH', 'pkeep', 'nm', 'vss', '=', 'a=b', 'phase', '-', '\x01', '\x7f', '\xc9', '.', 'm\x02', '.end\x01', 'o_f']
GOOD = ['.subckt t a b', '.subckt t a', 'm1 a b c vss nch', 'M2 a a b vdd pch more', 'm a b c d pkeep', '.ends', '.ends t', '.end', '.model x y', '* phase a +',
        '* phase o_F -', '+ c d', '+', '* end', '.subckt', '.subckt a=b', '.ends t t', '.subckt t a a', 'm1 a b c', '* phase a\x01 +', '  + x', '\t.end', '+.end']


def draw_text(r):
    out = ''
    if r.random() < 0.6:
        ls = ['.subckt t a b'] + ['m%d a b c vss nch' % i for i in range(r.randint(0, 4))] + ['.ends t']
        for _ in range(r.randint(0, 4)):
            ls.insert(r.randint(0, len(ls)), r.choice(GOOD))
        if r.random() < 0.3 and ls:
            del ls[r.randrange(len(ls))]
    else:
        ls = [r.choice(GOOD) if r.random() < 0.7 else '' for _ in range(r.randint(0, 7))]
    for l in ls:
        if r.random() < 0.12:
            ws = l.split(' ')
            ws.insert(r.randint(0, len(ws)), r.choice(BITS))
            l = r.choice([' ', '\t', '  ']).join(ws)
        if r.random() < 0.08:
            l = r.choice([' ', '\t', '']) + l + r.choice(['\r', ' ', '\r\r', ''])
        out += l + '\n'
    return out[:-1] if r.random() < 0.3 else out


def main(seed, count):
    r = random.Random(seed)
    n = Counter()
    for _ in range(count):
        text = draw_text(r)
        md, mp = r.choice([(100, 100), (100, 100), (2, 1), (3, 2)])
        faults = all_faults(text, md, mp)
        a = circuit_of(text, md, mp)
        fault, b = read(text, md, mp)
        first = None
        if faults:
            line, kind = min(faults)
            first = (line, kind + 1)
        if first != fault or a != b or (a is None) != bool(faults):
            print('DIFFERS deck text', repr(text), md, mp, first, fault, a, b, flush=True)
        n['texts'] += 1
        n['refused' if faults else 'read'] += 1
        if _ % 4 == 0:
            c = draw_circuit(r)
            t = D.written(c)
            if t != write(c):
                print('DIFFERS written', c, t, write(c), flush=True)
            good = not any('=' in x for x in [c['name']] + c['nets'][:c['ports']])
            if good and (circuit_of(t, 100, 100) != c or read(t, 100, 100)[1] != c):
                print('DIFFERS reads back', c, flush=True)
            n['circuits'] += 1
            n['circuits in roles'] += bool(D.has_roles(c['nets'][:c['ports']]))
    return n


if __name__ == '__main__':
    begun = time.process_time()
    n = main(int(sys.argv[1]), int(sys.argv[2]))
    print('texts seed', sys.argv[1], dict(n), '%.0f s' % (time.process_time() - begun), flush=True)
