"""compare_files.py SEED COUNT [deep]: definitions beside rules on hierarchies: classes, refusals, networks, files of one model, runs."""
import random, sys, collections
import definitions as d, rules as p, make_files
import compare_texts
from data import *

def loosen(r, n):
    """A network with one thing changed."""
    x = r.randrange(8)
    k = len(n.names)
    if x == 0 and n.names:
        j = r.randrange(k)
        return n._replace(names=n.names[:j] + (n.names[j] + b"0",) + n.names[j + 1:])
    if x == 1: return n._replace(inputs=n.inputs + 1)
    if x == 2 and n.outputs and k > 1:
        j = r.randrange(len(n.outputs))
        return n._replace(outputs=n.outputs[:j] + ((n.outputs[j] + r.randint(1, k - 1)) % k,) + n.outputs[j + 1:])
    if x == 3 and n.latches:
        j = r.randrange(len(n.latches))
        l = n.latches[j]
        return n._replace(latches=n.latches[:j] + (l._replace(init=not l.init),) + n.latches[j + 1:])
    if x == 4 and len(n.tables) > 1 and n.tables[0] != n.tables[1]:
        return n._replace(tables=(n.tables[1], n.tables[0]) + n.tables[2:])
    if x == 5 and n.tables:
        t = n.tables[0]
        return n._replace(tables=(t._replace(on=not t.on),) + n.tables[1:])
    if x == 6 and n.tables and n.tables[0].inputs and k > 1:
        t = n.tables[0]
        return n._replace(tables=(t._replace(inputs=((t.inputs[0] + r.randint(1, k - 1)) % k,) + t.inputs[1:]),) + n.tables[1:])
    return n._replace(name=n.name + b"x")

def records(h):
    """The definitions' path of each path of the rules."""
    out = {}
    for path, _ in h.parent: 
        if path in out: continue
        m, rec = h.main, ()
        for k in path:
            i = m.instances[k]
            rec = (i,) + rec
            m = h.by_name[i.unit]
        out[path] = rec
    return out

def one(r, f, limits, stat, kinds):
    if not d.is_good_file(f) or not p.good(f): return "the file isn't good"
    all = d.refusals(f, limits)
    orders = sorted(d.refusal_order(x) for x in all)
    got = p.flatten(f, limits)
    if got[0] == "no":
        stat["refused %d" % d.refusal_order(got[1])] += 1
        for j, a in enumerate(orders):
            kinds[(a,)] += 1 if len(orders) == 1 else 0
            for b in orders[j + 1:]:
                kinds[(a, b)] += 1
                if len(orders) == 2: kinds[("only", a, b)] += 1
        if not d.is_refusal(all, got[1]): return "refusal %r isn't the definitions' %r" % (got[1], all)
        if sum(d.is_refusal(all, x) for x in all) != 1: return "two refusals %r" % (all,)
        return None
    stat["network"] += 1
    _, net, level, width, h, control = got
    rec = records(h)
    stat["width %d" % min(width, 4)] += 1
    if len(rec) >= 4: stat["paths 4 or more"] += 1
    if max(map(len, rec), default=0) >= 3: stat["depth 3 or more"] += 1
    stat["pin left out"] += net.inputs < len(f[0].inputs)
    stat["instances"] += len(h.by_name) > 1 and len(f[0].instances) > 0
    back = {v: k for k, v in rec.items()}
    if len(back) != len(rec): return "two paths are one"
    # classes of pairs
    of = {}
    for (path, name), c in h.klass.items():
        s = d.signal_of(rec[path], name)
        if of.setdefault(c, s) != s: return "one class, two signals %r" % ((path, name),)
    if len(set(of.values())) != len(of): return "two classes, one signal"
    pairs = [(q, n) for q, m in d.occurrences(f) for n in dict.fromkeys(d.names_of(m))]
    if len(pairs) != len(h.klass) or len(set(pairs)) != len(pairs): return "pairs are counted otherwise"
    lev = lambda s: level.get(h.klass[(back[s[0]], s[1])], 0)
    if not d.is_network_of(f, all, net, lev, width): return "network %r isn't the definitions'" % (net,)
    if r.random() < 0.12:
        bad = loosen(r, net)
        if d.is_network_of(f, all, bad, lev, width): return "a second network %r" % (bad,)
    if r.random() < 0.1 and d.is_network_of(f, all, net, lev, width + 1): return "two widths"
    if not d.is_network(net, limits): return "the network isn't kept %r" % (net,)
    # the file of one model
    g = d.file_of(net)
    if r.random() < 0.06:
        stat["one model"] += 1
        why = one_model(r, g, net)
        if why: return why
    return runs(r, f, got, net, g, stat) if r.random() < 0.15 else None

def one_model(r, g, net):
    if not d.is_good_file(g): return "the file of one model isn't good"
    if d.refusals(g, LIMITS): return "the file of one model is refused %r" % (d.refusals(g, LIMITS),)
    return compare_texts.files(g)

def runs(r, f, got, net, g, stat):
    rest = len(net.tables)
    if rest > 6 or len(net.names) > 14: return None
    stat["run"] += 1
    stream = [[r.randrange(2) for _ in range(net.inputs)] for _ in range(r.choice([1, 2, 3]))]
    bools = [[bool(b) for b in s] for s in stream]
    mine = p.run(got, stream)
    theirs = d.network_runs(net, bools)
    stat["cycle"] += len(stream)
    if len(theirs) != 1: return "not one run"
    if [(list(map(int, o)), list(map(int, s))) for o, s in theirs[0]] != mine: return "runs differ %r %r %r" % (stream, theirs[0], mine)
    if d.run_lines(bools, theirs[0]) != p.cycle_text(stream, mine): return "cycle lines differ"
    # the network of the file of one model has the same run
    again = p.flatten(g, LIMITS)
    if again[0] != "yes" or p.run(again, stream) != mine: return "the file of one model runs otherwise"
    if len(d.network_runs(again[1], bools)) != 1 or d.network_runs(again[1], bools)[0] != theirs[0]: return "its network runs otherwise"
    return None

def spoil(r, f):
    """A file with something that may not be good."""
    f = list(f)
    k = r.randrange(len(f))
    m = f[k]
    bad = lambda: r.choice([b"", b"a b", b"a\t", b"#", b"a#", b"\x7f", b"\x1f", b"\x80", b"a=b", b"=", b"NIL", b"\\", b"a\\", b"!", b"\x00", b" "])
    x = r.randrange(13)
    if x == 0: m = m._replace(name=bad())
    elif x == 1: m = m._replace(inputs=m.inputs + (bad(),))
    elif x == 2: m = m._replace(outputs=(bad(),) + m.outputs)
    elif x == 3 and m.tables: m = m._replace(tables=(m.tables[0]._replace(output=bad()),) + m.tables[1:])
    elif x == 4 and m.tables: m = m._replace(tables=(m.tables[0]._replace(on=False, rows=r.choice([(), m.tables[0].rows])),) + m.tables[1:])
    elif x == 5 and m.tables: m = m._replace(tables=m.tables[:-1] + (m.tables[-1]._replace(rows=m.tables[-1].rows + (b"01",)),))
    elif x == 6 and m.tables: m = m._replace(tables=(m.tables[0]._replace(inputs=m.tables[0].inputs + (bad(),)),) + m.tables[1:])
    elif x == 7 and m.latches: m = m._replace(latches=(m.latches[0]._replace(control=("re", bad())),) + m.latches[1:])
    elif x == 8 and m.latches: m = m._replace(latches=(m.latches[0]._replace(init=r.randint(2, 5), input=r.choice([m.latches[0].input, bad()])),) + m.latches[1:])
    elif x == 9 and m.instances: m = m._replace(instances=(m.instances[0]._replace(bindings=m.instances[0].bindings + ((bad(), b"a"),)),) + m.instances[1:])
    elif x == 10 and m.instances: m = m._replace(instances=m.instances + (m.instances[0]._replace(bindings=((b"x", bad()),), line=r.choice([99, m.instances[0].line])),))
    elif x == 11 and m.instances and m.tables: m = m._replace(instances=(m.instances[0]._replace(line=m.tables[0].line),) + m.instances[1:])
    elif x == 12 and m.instances: m = m._replace(instances=(m.instances[0]._replace(unit=bad()),) + m.instances[1:])
    f[k] = m
    return tuple(f) if r.random() > 0.01 else ()

if __name__ == "__main__":
    seed, count = int(sys.argv[1]), int(sys.argv[2])
    r = random.Random(seed)
    stat, kinds = collections.Counter(), collections.Counter()
    bad = 0
    for k in range(count):
        f = make_files.file(r, len(sys.argv) > 3)
        limits = make_files.limits(r)
        why = one(r, f, limits, stat, kinds)
        if not why and r.random() < 0.06:
            s = spoil(r, f)
            stat["goodness"] += 1
            g = d.is_good_file(s)
            stat["good"] += g
            if g != p.good(s): why, f = "good otherwise", s
            elif g and s:
                why = compare_texts.files(s)
                if why: f = s
        if why:
            bad += 1
            print("DIFFERS", why, "\nFILE", f, "\nLIMITS", limits, flush=True)
            if bad > 5: break
    alone = {k[0]: v for k, v in kinds.items() if len(k) == 1}
    pairs = {k: v for k, v in kinds.items() if len(k) == 2}
    only = {k[1:]: v for k, v in kinds.items() if len(k) == 3}
    print("files", count, "differ", bad, dict(sorted(stat.items())))
    print("alone", dict(sorted(alone.items())), "pairs", len(pairs), "fewest", sorted((v, k) for k, v in pairs.items())[:6],
          "missing", [(a, b) for a in range(1, 12) for b in range(a + 1, 12) if (a, b) not in pairs],
          "just two", len(only), "missing", [(a, b) for a in range(1, 12) for b in range(a + 1, 12) if (a, b) not in only], flush=True)
