"""compare_networks.py SEED COUNT: networks that no file need have given (tables in any order that reads before itself, odd names):
what they keep, their runs by all valuations, their file of one model, its text, its network and its runs."""
import random, sys, collections
import definitions as d, rules as p, compare_texts
from data import *

ODD = [b"a", b"w0", b"w1", b"ww2", b"NIL", b"re", b"0", b"1", b"-", b"a\\", b"\\", b"=", b"a=b", b".names", b".end", b"\xff", b"11", b"w", b"x", b"y", b"z", b"q", b"f", b"g", b"h", b"$", b"!"]

def network(r):
    inputs, latches, tables = r.choice([0, 1, 2, 3]), r.choice([0, 0, 1, 2]), r.choice([0, 1, 2, 3, 4, 5])
    k = inputs + latches + tables
    names = r.sample(ODD, k)
    ts = []
    for j in range(tables):
        below = inputs + latches + j
        ins = tuple(r.randrange(below) for _ in range(r.choice([0, 1, 2, 2, 3]))) if below else ()
        rows = tuple(bytes(r.choice(b"01-") for _ in ins) for _ in range(r.choice([0, 1, 2, 3])))
        ts.append(NetTable(ins, True if not rows else r.random() < 0.5, rows))
    outs = r.sample(range(k), r.randint(0, min(k, 4)))
    ls = tuple(NetLatch(r.randrange(k), r.random() < 0.5) for _ in range(latches))
    n = Network(r.choice(ODD), tuple(names), inputs, tuple(outs), ls, tuple(ts))
    if r.random() < 0.15 and tables:  # perhaps no network
        x = r.randrange(6)
        t = n.tables[0]
        if x == 0: n = n._replace(tables=(t._replace(inputs=t.inputs + (max(0, inputs + latches + r.randint(-1, 1)),), rows=tuple(q + b"1" for q in t.rows)),) + n.tables[1:])
        if x == 1: n = n._replace(outputs=n.outputs + (r.randrange(k + 1),))
        if x == 2: n = n._replace(names=n.names[:-1] + (r.choice(names),))
        if x == 3: n = n._replace(tables=(t._replace(on=False),) + n.tables[1:])
        if x == 4: n = n._replace(names=n.names[:-1] + (r.choice([b"", b"a b", b"#", b"\x7f", b"ok"]),))
        if x == 5: n = n._replace(inputs=n.inputs + r.choice([0, 1]))
    return n

def keeps(n):
    """What the rules say that a network keeps."""
    first = n.inputs + len(n.latches)
    ok = all(p.NAME.match(x) for x in (n.name, *n.names)) and len(set(n.names)) == len(n.names) == first + len(n.tables)
    for k, t in enumerate(n.tables):
        ok = ok and max(t.inputs, default=-1) < first + k and {len(q) for q in t.rows} <= {len(t.inputs)} and (len(t.rows) > 0 or t.on)
    return bool(ok and max([*n.outputs, *[l.input for l in n.latches]], default=-1) < len(n.names) and len(set(n.outputs)) == len(n.outputs))

def cycles(n, stream):
    """The run by the rules: one table after the other."""
    state, out = [int(l.init) for l in n.latches], []
    for bits in stream:
        v = list(bits) + state
        for t in n.tables: v.append(p.table_value(t, [v[s] for s in t.inputs]))
        state = [v[l.input] for l in n.latches]
        out.append(([v[o] for o in n.outputs], state))
    return out

def one(r, n, stat):
    k = d.is_network(n, LIMITS)
    if k != keeps(n): return "kept otherwise"
    stat["network" if k else "no network"] += 1
    if not k: return None
    stream = [[r.randrange(2) for _ in range(n.inputs)] for _ in range(r.choice([0, 1, 2, 3]))]
    bools = [[bool(b) for b in s] for s in stream]
    mine = cycles(n, stream)
    theirs = d.network_runs(n, bools)
    stat["cycles"] += len(stream)
    if len(theirs) != 1 or [(list(map(int, o)), list(map(int, s))) for o, s in theirs[0]] != mine: return "runs differ %r %r" % (theirs, mine)
    g = d.file_of(n)
    if not d.is_good_file(g) or d.refusals(g, LIMITS): return "its file isn't accepted"
    why = compare_texts.files(g)
    if why: return why
    again = p.flatten(p.read(d.printed(g))[1], LIMITS)
    if again[0] != "yes" or p.run(again, stream) != mine or cycles(again[1], stream) != mine: return "its file runs otherwise"
    h = again[4]
    lev = lambda s: again[2].get(h.klass[((), s[1])], 0)
    if not d.is_network_of(g, [], again[1], lev, again[3]): return "its network isn't the definitions'"
    return None

if __name__ == "__main__":
    seed, count = int(sys.argv[1]), int(sys.argv[2])
    r = random.Random(seed)
    stat, bad = collections.Counter(), 0
    for _ in range(count):
        n = network(r)
        why = one(r, n, stat)
        if why:
            bad += 1
            print("DIFFERS", why, n, flush=True)
            if bad > 5: break
    print("networks", count, "differ", bad, dict(sorted(stat.items())), flush=True)
