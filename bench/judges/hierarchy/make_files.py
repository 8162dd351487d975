"""Random hierarchies: files of models that are right for the most part, then changed in a few places, and their texts."""
from data import *

MAIN = [b"a", b"b", b"c", b"f", b"g", b"w0", b"w1", b"w12", b"ww0", b"ww3", b"w", b"www", b"w1x", b"W1", b"w-1", b"w00", b"www7", b"x", b"y", b"wx1", b"ww", b"w_1", b"wwww1"]
SUB = [b"a", b"b", b"x", b"y", b"z", b"o", b"p", b"w0", b"n", b"clk"]
MODELS = [b"top", b"m", b"u", b"v", b"w1", b"a", b"z"]

def row(r, k): return bytes(r.choice(b"01-") for _ in range(k))

def table(r, ins, out):
    n = r.choice([0, 1, 1, 2, 2, 3])
    rows = tuple(row(r, len(ins)) for _ in range(n))
    return Table(tuple(ins), out, True if not rows else r.random() < 0.6, rows, 0)

def file(r, deep=False):
    """A file; a deep one has 3 to 6 models, each with instances of the next ones and ports that pass through."""
    count = r.choice([3, 4, 4, 5, 6]) if deep else r.choice([1, 1, 2, 2, 2, 3, 3, 4])
    edge = r.choice(["re", "fe"])
    clocked = r.random() < 0.6
    shapes = []
    for k in range(count):
        pool = MAIN if k == 0 else SUB
        ins = r.sample(pool, r.choice([0, 1, 1, 2, 2, 3]))
        outs = r.sample(pool, r.choice([0, 1, 1, 2, 2]))
        if r.random() < 0.8: outs = [o for o in outs if o not in ins]
        ck = None
        if clocked and r.random() < 0.7:
            ck = r.choice([b"clk", b"ck"])
            if ck in ins or ck in outs: ck = None
            else: ins.insert(r.randint(0, len(ins)), ck)
        shapes.append([MODELS[k], ins, outs, ck])
    models = []
    for k, (name, ins, outs, ck) in enumerate(shapes):
        pool = MAIN if k == 0 else SUB
        driven = [n for n in ins if n != ck]
        if ck and r.random() < 0.05: driven.append(ck)
        wanted = [o for o in outs if o not in ins]
        r.shuffle(wanted)
        fresh = [n for n in pool if n not in ins and n not in outs and n != ck]
        r.shuffle(fresh)
        wanted = fresh[:r.choice([0, 0, 1, 2, 3])] + wanted
        r.shuffle(wanted)
        cards, latches = [], []
        later = list(range(k + 1, min(count, k + 3) if deep else count))
        own = ck if ck else (b"k" if clocked and r.random() < 0.15 else None)
        def latch(out):
            x = r.random()
            control = None if x < 0.25 or not clocked else ((edge, None) if x < 0.4 else ((edge, own) if own else None))
            latches.append((out, control))
        def instance(give):
            unit = shapes[r.choice(later)]
            binds = []
            for n in unit[1]:
                if n == unit[3] and own and r.random() < 0.93: binds.append((n, own))
                elif driven: binds.append((n, r.choice(driven)))
                elif ck: binds.append((n, ck))
                else: binds.append((n, r.choice(pool)))
            got = []
            for n in unit[2]:
                if n in unit[1]: continue
                if give:
                    s = give.pop()
                    binds.append((n, s))
                    got.append(s)
                elif r.random() < 0.3 and fresh:
                    s = fresh.pop()
                    if s not in wanted and s not in driven: binds.append((n, s)); got.append(s)
            r.shuffle(binds)
            cards.append(Instance(unit[0], tuple(binds), 0))
            driven.extend(got)
        while wanted:
            x = r.random()
            if x < (0.25 if deep else 0.45) or not later and x < 0.7:
                ins_t = [r.choice(driven) for _ in range(r.choice([0, 1, 1, 2, 2, 3]))] if driven else []
                out = wanted.pop()
                cards.append(table(r, ins_t, out))
                driven.append(out)
            elif x < (0.85 if deep else 0.7) and later: instance(wanted)
            else:
                out = wanted.pop()
                latch(out)
                driven.append(out)
        if later and r.random() < 0.45: instance([])
        for out, control in latches:
            inp = r.choice(driven) if driven else out
            cards.append(Latch(inp, out, control, r.randrange(4), 0))
        r.shuffle(cards)
        models.append([name, list(ins), list(outs), cards])
    if r.random() < 0.4 and count > 2:
        rest = models[1:]
        r.shuffle(rest)
        models = models[:1] + rest
    for _ in range(r.choice([0, 0, 0, 1, 1, 1, 2, 2, 3])): change(r, models)
    return number(r, models)

def names_in(m):
    out = m[1] + m[2]
    for c in m[3]:
        if isinstance(c, Table): out = out + list(c.inputs) + [c.output]
        elif isinstance(c, Latch): out = out + [c.input, c.output] + ([c.control[1]] if c.control and c.control[1] else [])
        else: out = out + [a for _, a in c.bindings]
    return out or [b"a"]

def change(r, models):
    m = r.choice(models)
    x = r.random()
    some = lambda: r.choice(names_in(m)) if r.random() < 0.75 else r.choice(SUB + [b"clk", b"k", b"NIL"])
    other = r.choice(models)
    if x < 0.07: m[0] = other[0]
    elif x < 0.11:
        ports = r.choice([m[1], m[2]])
        if ports: ports.insert(r.randint(0, len(ports)), r.choice(ports))
        if ports and r.random() < 0.3: ports.insert(r.randint(0, len(ports)), r.choice(ports))
    elif x < 0.15 and r.random() < 0.5: m[3].insert(r.randint(0, len(m[3])), Instance(r.choice([b"none", b"yy"]), ((b"x", some()),), 0))
    elif x < 0.15: r.choice([m[1], m[2]]).append(some())
    elif x < 0.19:
        ports = r.choice([m[1], m[2]])
        if ports: ports.pop(r.randrange(len(ports)))
    elif x < 0.27:  # one more instance, of any model
        binds = [(n, some()) for n in other[1]] + [(n, some()) for n in other[2] if n not in other[1] and r.random() < 0.5]
        m[3].insert(r.randint(0, len(m[3])), Instance(other[0], tuple(binds), 0))
    elif x < 0.31: m[3].insert(r.randint(0, len(m[3])), table(r, [some() for _ in range(r.choice([0, 1, 2]))], some()))
    elif x < 0.37:
        c = r.choice([None, (r.choice(["re", "fe"]), r.choice([None, some(), b"clk", b"k"]))])
        if c and c[1] == b"NIL": c = (c[0], None)
        m[3].insert(r.randint(0, len(m[3])), Latch(some(), some(), c, r.randrange(4), 0))
    elif m[3]:
        k = r.randrange(len(m[3]))
        c = m[3][k]
        y = r.random()
        if y < 0.12: m[3].pop(k)
        elif isinstance(c, Table):
            if y < 0.6 and c.inputs:
                j = r.randrange(len(c.inputs))
                m[3][k] = c._replace(inputs=c.inputs[:j] + (some(),) + c.inputs[j + 1:])
            else: m[3][k] = c._replace(output=some())
        elif isinstance(c, Latch):
            if y < 0.35: m[3][k] = c._replace(input=some())
            elif y < 0.55: m[3][k] = c._replace(output=some())
            else:
                s = r.choice([None, some(), b"clk"])
                m[3][k] = c._replace(control=(r.choice(["re", "fe"]), None if s == b"NIL" else s))
        else:
            bs = list(c.bindings)
            if y < 0.3: c = c._replace(unit=r.choice([b"none", b"zz", b"u", other[0]]))
            elif y < 0.42: bs.insert(r.randint(0, len(bs)), (r.choice([b"zz", some()]), some()))
            elif y < 0.55 and bs: bs.insert(r.randint(0, len(bs)), (r.choice(bs)[0], some()))
            elif y < 0.65 and bs: bs.pop(r.randrange(len(bs)))
            elif bs:
                j = r.randrange(len(bs))
                bs[j] = (bs[j][0], some())
            m[3][k] = c._replace(bindings=tuple(bs))

def number(r, models):
    """Lines: rising over the file as in a text, or for one file in six any numbers that differ within a model."""
    loose = r.random() < 1 / 6
    line, out = 0, []
    for name, ins, outs, cards in models:
        line += r.randint(1, 3)
        at = line
        if loose:
            at = r.randint(0, 9)
            lines = r.sample(range(0, 40), len(cards))
        else:
            lines = []
            for _ in cards:
                line += r.randint(1, 4)
                lines.append(line)
        cards = [c._replace(line=l) for c, l in zip(cards, lines)]
        out.append(Model(name, tuple(ins), tuple(outs), tuple(c for c in cards if isinstance(c, Table)), tuple(c for c in cards if isinstance(c, Latch)),
                         tuple(c for c in cards if isinstance(c, Instance)), at))
    return tuple(out)

def limits(r):
    x = r.random()
    if x < 0.7: return dict(LIMITS)
    out = dict(LIMITS)
    for word, most in (("signals", 14), ("instances", 5), ("letters", 30), ("sinks", 5)):
        if r.random() < 0.4: out[word] = r.randint(0, most)
    return out

def text(r, f):
    """A text of such a file, cards in order of their lines, ports on one card or more, anywhere between other cards."""
    out = []
    gap = lambda: r.choice([b" "] * 7 + [b"  ", b"\t", b" \\\n", b"\t\\\r\n "])
    def put(*ws):
        s = ws[0]
        for w in ws[1:]: s += gap() + w
        if s.endswith(b"\\"): s += b" "
        s += r.choice([b""] * 8 + [b" # c", b"#\\", b" ", b"\r"])
        out.append(s + b"\n")
    for m in f:
        chunks = []
        for c in sorted(m.tables + m.latches + m.instances, key=lambda c: c.line):
            if isinstance(c, Table):
                ls = [[b".names", *c.inputs, c.output]] + [[x for x in (row, b"1" if c.on else b"0") if x] for row in c.rows]
            elif isinstance(c, Latch):
                ws = [b".latch", c.input, c.output]
                if c.control: ws += [c.control[0].encode(), c.control[1] or b"NIL"]
                if c.init != 3 or r.random() < 0.5: ws.append(b"%d" % c.init)
                ls = [ws]
            else: ls = [[b".subckt", c.unit] + [a + b"=" + b for a, b in c.bindings]]
            chunks.append(ls)
        for card, names in ((b".inputs", list(m.inputs)), (b".outputs", list(m.outputs))):
            at = 0
            while names:
                k = r.randint(1, len(names)) if r.random() < 0.4 else len(names)
                at = r.randint(at, len(chunks)) if r.random() < 0.3 else at
                chunks.insert(at, [[card, *names[:k]]])
                at += 1
                names = names[k:]
        put(b".model", m.name)
        for ls in chunks:
            if r.random() < 0.15: out.append(r.choice([b"\n", b"# x\n", b" \t\n", b".clock a b\n", b"\r\n"]))
            for ws in ls: put(*ws)
        if r.random() < 0.8: put(b".end")
    t = b"".join(out)
    return t[:-1] if r.random() < 0.1 else t
