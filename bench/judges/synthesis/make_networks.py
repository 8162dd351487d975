# Random networks as plain data, and their text in BLIF.
# A network: name, names, inputs (a number), outputs, latches [(input signal, start)], tables [(inputs, on, rows)], rows as strings.
from collections import namedtuple
Net = namedtuple('Net', 'name names inputs outputs latches tables')

NAMES = ['a', 'A', 'b', 'B_', '_', '__', 'n[0]', 'n[1]', 'x0', 'q0', 'd0', 'z0', 'c0', 'ck1', 'vdd', 'o_f', 'i_a', '\xc3\xa9', 'Zz9', '0', '=',
         'a=b', '$x', 'f', 'g', 'h', 'w1', 'lm', 'rs', 'm0p', 't0_0', '~!', '\xff', 'k', 'l', 'mm', 'nn', 'p.q', 'p/q', 'u', 'v']


def draw_rows(r, k, most):
    n = r.choice([0, 1, 1, 2, 2, 3, 3, 4, most])
    if k == 0:
        return [''] * r.choice([0, 0, 1, 1, 2])
    weights = r.choice(['01-', '11-', '01', '0011-', '1', '1----', '-01', '--'])
    return [''.join(r.choice(weights) for _ in range(k)) for _ in range(n)]


def draw_network(r, most_inputs=4, most_latches=3, most_tables=7, most_table_inputs=4, most_rows=4, level_order=True, distinct=False, full=False):
    inputs = r.randint(3 if full else 0, most_inputs)
    nl = r.choice([0, 0, 0, 1, 1, 2, most_latches])
    nt = r.randint(0, most_tables)
    leaves = inputs + nl
    tables = []
    near = r.random() < 0.4
    turned = r.random() < 0.4
    for i in range(nt):
        before = leaves + i
        if full:
            # few constants, deep logic and shared tables
            k = r.choice([1, 2, 3, 3, 4, most_table_inputs])
            ins = [r.randrange(0 if r.random() < 0.3 else max(0, before - 6), before) for _ in range(k)]
            rows = [''.join(r.choice('01-') for _ in ins) for _ in range(r.choice([1, 1, 2, 3, most_rows]))]
            tables.append((ins, r.random() < 0.6, rows))
            continue
        if turned and leaves >= 2:
            # small tables, mostly over the first tables, in either sign, so that signs of sinks matter
            gate = i < 2 or r.random() < 0.3
            ins = r.sample(range(before), 2) if gate else [r.randrange(leaves, min(before, leaves + 3)) for _ in range(r.choice([1, 1, 2]))]
            rows = [''.join(r.choice('01') for _ in ins)] if gate or len(ins) == 2 else [r.choice('001')]
            tables.append((ins, r.random() < 0.5, rows))
            continue
        k = 0 if before == 0 else r.choice([0, 1, 1, 2, 2, 2, 3, 3, most_table_inputs])
        low = max(0, before - 4) if near else 0
        ins = [r.randrange(low, before) for _ in range(k)]
        rows = draw_rows(r, k, most_rows)
        on = True if not rows else r.random() < 0.6
        tables.append((ins, on, rows))
    total = leaves + nt
    if level_order:
        levels = [0] * leaves
        for ins, on, rows in tables:
            levels.append(1 + max([levels[s] for s in ins], default=0))
        order = sorted(range(nt), key=lambda i: levels[leaves + i])
        place = {leaves + i: leaves + p for p, i in enumerate(order)}
        tables = [([place.get(s, s) for s in tables[i][0]], tables[i][1], tables[i][2]) for i in order]
    latches = [(r.randrange(total), r.random() < 0.5) for _ in range(nl)] if total else []
    count = min(total, r.choice([3, 3, 4, 5] if turned else [0, 1, 1, 1, 2, 2, 3, 4]))
    if full:
        count = min(total, r.randint(3, 10))
    late = list(range(max(0, total - (6 if turned else 4)), total))
    outputs = r.sample(range(total), count) if r.random() < 0.5 else r.sample(late, min(count, len(late)))
    names = r.sample(NAMES, total) if total <= len(NAMES) and not distinct else ['s%d' % i for i in range(total)]
    name = r.choice(['m', 'M', 'top', 'a_b', 'x=y', 'n[1]', '\xc3\xa9', '_'])
    return Net(name, names, inputs, outputs, latches, tables)


def blif(net):
    lines = ['.model ' + net.name]
    leaves = net.inputs + len(net.latches)
    if net.inputs:
        lines.append('.inputs ' + ' '.join(net.names[:net.inputs]))
    if net.outputs:
        lines.append('.outputs ' + ' '.join(net.names[s] for s in net.outputs))
    for i, (ins, on, rows) in enumerate(net.tables):
        lines.append('.names ' + ' '.join([net.names[s] for s in ins] + [net.names[leaves + i]]))
        for row in rows:
            lines.append((row + ' ' if row else '') + ('1' if on else '0'))
    for j, (s, init) in enumerate(net.latches):
        lines.append('.latch %s %s %d' % (net.names[s], net.names[net.inputs + j], 1 if init else 0))
    lines.append('.end')
    return ('\n'.join(lines) + '\n').encode('latin-1')
