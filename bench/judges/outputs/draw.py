"""Small cases from a seed: a text of BLIF with a hierarchy, options of synthesis, a stimulus, options of a simulation."""
from random import Random

PLAIN = [b"a", b"b", b"c", b"d", b"e", b"f", b"g", b"h", b"x", b"y", b"z", b"n1", b"n2", b"n3", b"s0", b"s1", b"t"]
ODD = [b"A", b"B", b"d[0]", b"d[1]", b"$abc$12$n4", b"w0", b"w3", b"w7", b"ww1", b"w12", b"x\\", b"y\\z\\", b"\xc3\xa9", b"_", b"_61", b"NIL", b"re", b"fe", b".names",
       b".x", b"1", b"0", b"-", b"w", b"ww", b"i_a", b"o_f", b"vdd", b"ck1", b"a,b", b"q0", b"d0", b"z0", b"+", b"*", b"\"", b"lm", b"rs", b"c0", b"x0", b"m0", b"\xff",
       b"{", b"a.b", b"x0.y", b"cell-0", b"-1", b"11", b"~", b"@", b"[", b"^", b"NiL", b"AA", b"aA", b"$", b";", b"%41"]
SIDES = [b"a=b", b"=", b"x=", b"=y", b"a=a"]


class Draft:
    """A model as it is drawn: its ports, its cards and what its parent has to know."""


def pick(r, weights):
    return r.choices(range(len(weights)), weights)[0]


def draw_rows(r, k, on):
    rows = []
    for _ in range(pick(r, [0.5, 4, 6, 4, 2])):
        rows.append(("".join(r.choice("000111--") for _ in range(k)), on))
    if k == 0 and len(rows) > 2:
        rows = rows[:1]
    return rows


def draw_text(seed):
    """(text, facts). A mistake is planted in about one text of fourteen."""
    r = Random(2 * seed + 1)
    many = 1 + pick(r, [5, 5, 4, 3])
    odd = r.choice([0, 0.2, 0.6])
    clocking = r.choice(["untyped", "untyped", "nil", "signal", "signal"])
    edge = r.choice([b"re", b"fe"])
    mistake = r.randrange(14) == 0
    names_of_models, drafts = [], [None] * many
    for k in range(many):
        while True:
            n = r.choice([b"top", b"sub", b"m%d" % k, b"M", b"a=b", b"x", b"cell-0", b"Top", b"u.v", b"_"] if r.random() < 0.4 else [b"m%d" % k, b"u%d" % k])
            if n not in names_of_models:
                break
        names_of_models.append(n)
    # the size of what stands below a model is bounded, so cases stay small
    for k in reversed(range(many)):
        m = Draft()
        used = set()

        def fresh(formal=False):
            while True:
                x = r.random()
                n = r.choice(ODD) if x < odd else (b"%s%d" % (r.choice([b"n", b"w", b"t", b"N"]), r.randrange(30)) if x > 0.85 else r.choice(PLAIN))
                if not formal and r.random() < odd / 8:
                    n = r.choice(SIDES)
                if n not in used:
                    used.add(n)
                    return n
        main = k == 0
        m.inputs = [fresh(not main) for _ in range(pick(r, [0.6, 2, 5, 5, 2] if main else [0.7, 3, 4, 2]))]
        m.places, m.latches, m.tables, m.typed = 1, 0, 0, False
        m.cards, avail, m.clock = [], list(m.inputs), None
        m.loose, late = [], []

        def clock_name():
            if m.clock is None:
                m.clock = fresh(True)
                while m.clock == b"NIL":
                    m.clock = fresh(True)
            return m.clock
        outs_of_latches = [fresh() for _ in range(pick(r, [4, 4, 2]))]
        avail += outs_of_latches
        kids = list(range(k + 1, many))
        plan = [None] * pick(r, [0.5, 2, 4, 4, 3, 1.5] if main else [0.7, 3, 4, 2])
        if kids:
            calls = 1 + pick(r, [4, 4, 1.5]) if main else pick(r, [2, 4, 1.5])
            plan += [min(r.choice(kids), r.choice(kids)) for _ in range(calls)]
        r.shuffle(plan)
        for what in plan:
            if what is None:
                ins = []
                for _ in range(pick(r, [0.6, 2, 6, 5, 3])):
                    if avail:
                        n = avail[-1 - int(len(avail) * r.random() ** 1.5)]
                        if n in ins and r.random() < 0.8:
                            n = r.choice(avail)
                        ins.append(n)
                out = fresh()
                rows = draw_rows(r, len(ins), r.choice("1110"))
                if avail and r.random() < 0.12:  # an inverter
                    ins, rows = [avail[-1]], [r.choice([("0", "1"), ("1", "0")])]
                m.cards.append(("names", ins, out, rows))
                m.tables += 1
                avail.append(out)
                continue
            kid = drafts[what]
            if m.places + kid.places > 9 or m.latches + kid.latches > 5 or m.tables + kid.tables > 14:
                continue
            if not avail and any(f != kid.clock and f not in kid.driven for f in kid.inputs):
                continue
            m.places += kid.places
            m.latches += kid.latches
            m.tables += kid.tables
            binds, new = [], []
            for f in kid.inputs:
                if f in kid.driven:
                    n = fresh()
                    binds.append((f, n))
                    new.append(n)
                elif f == kid.clock:
                    binds.append((f, clock_name()))
                elif r.random() < 0.06:
                    late.append((len(m.cards), f))
                else:
                    binds.append((f, r.choice(avail)))
            for f in kid.outputs:
                if f in kid.inputs or r.random() < 0.2:
                    continue
                if f in kid.loose:
                    if avail and r.random() < 0.7:
                        binds.append((f, r.choice(avail)))
                    elif f in kid.read:
                        binds.append((f, r.choice(avail or [b"nothing"])))
                else:
                    n = fresh()
                    binds.append((f, n))
                    new.append(n)
            for f in kid.loose:
                if f in kid.read and f not in [b[0] for b in binds]:
                    binds.append((f, r.choice(avail or [b"nothing"])))
            avail += new
            r.shuffle(binds)
            m.cards.append(["subckt", names_of_models[what], binds])
        for at, f in late:
            m.cards[at][2].append((f, r.choice(avail or [b"nothing"])))

        def unread():
            seen = set()
            for c in m.cards:
                if c[0] == "names":
                    seen.update(c[1])
                elif c[0] == "latch":
                    seen.add(c[1])
                else:
                    inner = drafts[names_of_models.index(c[1])].inputs
                    seen.update(a for f, a in c[2] if f in inner)
            return [n for n in avail if n not in seen and n not in m.inputs]
        for out in outs_of_latches:
            kind = {"untyped": 0, "nil": r.choice([0, 1, 1]), "signal": r.choice([0, 1, 2, 2, 2])}[clocking]
            control = [None, (edge, b"NIL"), (edge, None)][kind]
            if kind == 2:
                control = (edge, clock_name())
            some = unread() if r.random() < 0.6 else []
            taken = r.choice(some) if some else avail[-1 - int(len(avail) * r.random() ** 2)]
            m.cards.append(("latch", taken, out, control, r.choice([b"", b"0", b"1", b"1", b"2", b"3"])))
            m.latches += 1
        count = min(len(avail), pick(r, [0.3, 2, 4, 4, 2]) if main else pick(r, [0.3, 4, 4, 1]))
        inner = [n for n in avail if n not in m.inputs]
        m.outputs = []
        for _ in range(count):
            some = [x for x in unread() if x not in m.outputs] if r.random() < 0.75 else []
            n = r.choice(some) if some else inner[-1 - int(len(inner) * r.random() ** 2)] if inner and r.random() < 0.88 else r.choice(avail)
            if n not in m.outputs:
                m.outputs.append(n)
        m.read, m.driven = set(), set()
        if not main and r.random() < 0.05 and avail:  # an input that the model itself drives
            n = fresh(True)
            ins = [r.choice(avail) for _ in range(r.choice([1, 2]))]
            m.cards.append(("names", ins, n, draw_rows(r, len(ins), r.choice("1110"))))
            m.inputs.append(n)
            m.driven.add(n)
        if not main and r.random() < 0.06:  # an output that the parent drives, perhaps read inside
            n = fresh(True)
            m.outputs.append(n)
            m.loose.append(n)
            if r.random() < 0.7:
                m.read.add(n)
                out = fresh()
                m.cards.append(("names", [n], out, [("0", "1")] if r.random() < 0.5 else [("1", "1")]))
        if not main:  # ports of submodels have no `=`
            m.outputs = [n for n in m.outputs if b"=" not in n]
        if m.clock and not (main and r.random() < 0.15):
            m.inputs.insert(r.randrange(len(m.inputs) + 1), m.clock)
        if r.random() < 0.45:
            r.shuffle(m.cards)
        drafts[k] = m
    plant = None
    if mistake:
        plant = r.choice(["drop bind", "twice", "undriven", "model", "row", "mixed", "control byte", "no model", "port", "loop", "edge", "card", "latch kind", "recursion"])
        m = r.choice(drafts)
        calls = [c for c in m.cards if c[0] == "subckt"]
        tables = [c for c in m.cards if c[0] == "names"]
        if plant == "drop bind" and calls and calls[0][2]:
            calls[0][2].pop(r.randrange(len(calls[0][2])))
        elif plant == "twice" and m.cards and m.inputs:
            m.cards.append(("names", [], r.choice(m.inputs), [("", "1")]))
        elif plant == "undriven":
            m.cards.append(("names", [b"nowhere"], b"elsewhere", [("1", "1")]))
        elif plant == "model":
            m.cards.append(["subckt", b"missing", []])
        elif plant == "row":
            m.cards.append(("names", m.inputs[:1], b"elsewhere", [("111", "1")]))
        elif plant == "mixed":
            m.cards.append(("names", m.inputs[:1], b"elsewhere", [("1" * len(m.inputs[:1]), "1"), ("0" * len(m.inputs[:1]), "0")]))
        elif plant == "port" and m.outputs:
            m.outputs.append(r.choice(m.outputs))
        elif plant == "loop" and tables:
            tables[0][1].append(r.choice(tables)[2])
            for j, row in enumerate(tables[0][3]):
                tables[0][3][j] = (row[0] + "-", row[1])
        elif plant == "edge":
            m.cards.append(("latch", (m.inputs or [b"nowhere"])[0], b"elsewhere", (r.choice([b"re", b"fe"]), r.choice(m.inputs or [b"NIL"])), b"0"))
        elif plant == "recursion":
            m.cards.append(["subckt", names_of_models[0], [(f, f) for f in drafts[0].inputs if b"=" not in f]])
    text = write(r, names_of_models, drafts, plant)
    return text, {"plant": plant, "drawn": many}


def write(r, names, drafts, plant):
    order = [0] + r.sample(range(1, len(drafts)), len(drafts) - 1)
    wild = r.choice([0, 0, 0.1, 0.3])
    crlf = r.random() < 0.1
    out = []

    def line(words):
        text = b""
        for k, w in enumerate(words):
            if k:
                if r.random() < wild / 3 and not text.endswith(b"\\"):
                    text += r.choice([b" \\", b"\\", b" \\#and on", b"\t\\"])
                    out.append(text)
                    text = r.choice([b"", b" ", b"  "])
                    if out[-1].endswith(b"#and on") and crlf:
                        pass
                else:
                    text += r.choice([b" ", b"\t", b"   "]) if r.random() < wild else b" "
            elif r.random() < wild / 2:
                text += b" "
            text += w
        if r.random() < wild / 2:
            text += r.choice([b" # note", b"\t#", b" #\\"])
        elif text.endswith(b"\\"):
            text += b" "
        elif r.random() < wild / 2:
            text += b" "
        out.append(text)
        if r.random() < wild / 2:
            out.append(r.choice([b"", b"# a comment \\", b"  \t", b"\\", b"#.end"]))
            if out[-1] == b"\\":
                out.append(b"")
    if r.random() < wild:
        out.append(b"# written by a front end")
    if plant == "no model":
        line([b".inputs", b"a"])
    for k in order:
        m = drafts[k]
        line([b".model", names[k]])
        heads = []
        for card, ports in ((b".inputs", m.inputs), (b".outputs", m.outputs)):
            while ports:
                n = len(ports) if r.random() < 0.8 else 1 + r.randrange(len(ports))
                heads.append([card] + ports[:n])
                ports = ports[n:]
            if r.random() < 0.05:
                heads.append([card])
        if r.random() < 0.1:
            heads.append([b".clock"] + ([m.clock] if m.clock else [b"any"]))
        blocks = []
        for c in m.cards:
            if c[0] == "names":
                blocks.append([[b".names"] + c[1] + [c[2]]] + [[w for w in (row.encode(), on.encode()) if w] for row, on in c[3]])
            elif c[0] == "latch":
                blocks.append([[b".latch", c[1], c[2]] + (list(c[3]) if c[3] else []) + ([c[4]] if c[4] else [])])
            else:
                blocks.append([[b".subckt", c[1]] + [f + b"=" + a for f, a in c[2]]])
        if r.random() < 0.8:
            blocks = [[h] for h in heads] + blocks
        else:
            for h in heads:
                blocks.insert(r.randrange(len(blocks) + 1), [h])
        # several cards of ports must keep their order
        for card in (b".inputs", b".outputs"):
            at = [i for i, b in enumerate(blocks) if b[0][0] == card]
            for i, h in zip(at, [h for h in heads if h[0] == card]):
                blocks[i] = [h]
        for b in blocks:
            for words in b:
                line(words)
        if plant == "card" and r.random() < 0.6:
            line([b".gate", b"x"])
        if plant == "latch kind" and r.random() < 0.6:
            line([b".latch", b"a", b"elsewhere", b"ah", b"NIL", b"0"])
        if plant == "control byte" and r.random() < 0.6:
            line([b".clock", b"\x01"])
        if r.random() < 0.75:
            line([b".end"])
    text = (b"\r\n" if crlf else b"\n").join(out)
    return text + (b"" if r.random() < 0.1 else b"\n")


METHODS = ["plain", "deck2", "exact", "skew", "compound"]


def number(r, n):
    return r.choice(["%d", "%d", "%d", "+%d", "0%d"]) % n


def option(r, name, value):
    return [name + "=" + value] if r.random() < 0.25 else [name, value]


def draw_options(seed, methods):
    """(options of synthesis that all methods of `plain`, `report` share, the words of a method and what it is called)."""
    r = Random(2 * seed + 2 ** 40)
    words, parts = [], []
    width = r.choice([None, None, 2, 2, 3, 4, 5, 6, 7, 8])
    height = r.choice([None, None, 2, 2, 3, 4, 5, 6])
    phases = r.choice([None, None, 1, 2, 3, 4])
    style = r.choice([None, None, "keeper", "precharge", "precharge"])
    if width:
        parts.append(option(r, "--width", number(r, width)))
    if height:
        parts.append(option(r, "--height", number(r, height)))
    bounds = list(parts)
    if phases:
        parts.append(option(r, "--phases", number(r, phases)))
    if style:
        parts.append(option(r, "--style", style))
    method = r.choice(methods)
    mine = list(parts)
    facts = {"phases": phases or 1, "style": style or "keeper", "width": width or 4, "height": height or 4}
    if method == "skew":
        phases = r.choice([2, 2, 3, 4])
        mine = bounds + [option(r, "--phases", number(r, phases))] + ([["--style", "keeper"]] if r.random() < 0.2 else []) + [["--skew"]]
        facts = dict(facts, phases=phases, style="keeper")
    elif method == "compound":
        mine = bounds + ([option(r, "--phases", number(r, phases))] if phases else []) + [option(r, "--style", "precharge"), ["--compound"]]
        facts = dict(facts, style="precharge")
    elif method == "exact":
        mine = mine + [["--exact"]]
    elif method == "deck2":
        mine = mine + [option(r, "--deck", "2")]
    if method in ("plain", "exact", "skew", "compound") and r.random() < 0.15:
        mine = mine + [option(r, "--deck", "1")]
    r.shuffle(mine)
    r.shuffle(parts)
    return sum(parts, []), sum(mine, []), method, facts


def draw_stream(r, width):
    return [[r.randrange(2) for _ in range(width)] for _ in range(pick(r, [0.5, 1, 2, 3, 3, 2, 1]))]


def write_stimulus(r, stream, width):
    wild = r.choice([0, 0, 0.3])
    text = b""
    for pins in stream:
        line = "".join("01"[b] for b in pins) if width else "-"
        if r.random() < wild:
            line = r.choice([" ", "\t", ""]) + line[:1] + r.choice([" ", "\t", ""]) + line[1:] + r.choice(["", " ", " # a cycle", "#0", "\r"])
        text += line.encode() + b"\n"
        if r.random() < wild:
            text += r.choice([b"\n", b"# none\n", b" \t\n", b"\r\n"])
    return text[:-1] if text and r.random() < 0.1 else text


def draw_sim(r, nets, may_overlap):
    """The words of a simulation, and what they mean."""
    words, facts = [], {"events": False, "probes": [], "skew": False}
    order = r.choice([None, None, "first", "last", "last", "seed", "seed", "seed"])
    if order:
        words.append(option(r, "--order", order))
    if order == "seed" and r.random() < 0.9 or r.random() < 0.05:
        words.append(option(r, "--seed", number(r, r.choice([r.randrange(100), r.randrange(2 ** 64), 2 ** 64 - 1]))))
    facts["order"] = order or "first"
    if r.random() < 0.45:
        facts["events"] = True
        words.append(["--events"])
    if r.random() < 0.35:
        probes = []
        for _ in range(r.choice([1, 1, 2, 3])):
            n, e = r.choice(nets), r.choice([b"", b"", b"+", b"-"])
            if r.random() < 0.15:
                n = r.choice([b"nix", n + b"0", n + b".x0", n[:-1] or b"q", b"i_", b"gnd", b"0"])
            probes.append((n, e))
        word = b",".join((n.upper() if r.random() < 0.2 else n) + e for n, e in probes)
        facts["probes"] = probes
        words.append(option(r, "--probe", word.decode("latin-1")))
    if may_overlap and r.random() < 0.65:
        facts["skew"] = True
        words.append(["--skew"])
    r.shuffle(words)
    return sum(words, []), facts
