"""The rules of texts, hierarchies and stimuli, written as a plain program without a look at the
definitions: a reader with a state, classes of signals by joining pairs, levels by going round, runs over the hierarchy itself."""
import re
from data import *

MAX_INPUTS = [4096]

# ---------------------------------------------------------------- section 1
def text_lines(text):
    raw = text.split(b"\n")
    if raw[-1] == b"": raw.pop()
    return [l[:-1] if l.endswith(b"\r") else l for l in raw]

def logical(text):
    out, current = [], None
    for number, line in enumerate(text_lines(text), 1):
        line = line.partition(b"#")[0]
        joins = line.endswith(b"\\")
        if joins: line = line[:-1] + b" "
        if current is None: current = [number, b""]
        current[1] += line
        if not joins:
            out.append(tuple(current))
            current = None
    if current is not None: out.append(tuple(current))
    return out

ROW = re.compile(rb"[01-]+\Z")
BIND = re.compile(rb"[^=]+=.+\Z", re.S)
TAKEN = {b".model", b".inputs", b".outputs", b".names", b".latch", b".subckt", b".clock", b".end"}

def read(text):
    """("ok", file) or ("bad", line, kind)."""
    models, model, table, any_words = [], None, None, False

    def close_table():
        nonlocal table
        if table is not None and model is not None:
            model["tables"].append(Table(tuple(table["in"]), table["out"], table["end"] != b"0", tuple(table["rows"]), table["line"]))
        table = None
    def close_model():
        nonlocal model
        close_table()
        if model is not None:
            models.append(Model(model["name"], tuple(model["in"]), tuple(model["out"]), tuple(model["tables"]), tuple(model["latches"]),
                                tuple(model["instances"]), model["line"]))
        model = None

    for number, line in logical(text):
        ws = [w for w in re.split(rb"[ \t]+", line) if w]
        if not ws: continue
        any_words = True
        bad = []
        if re.search(rb"[\x00-\x08\x0a-\x1f\x7f]", line): bad.append(1)
        card, args = ws[0], ws[1:]
        if card.startswith(b"."):
            if card not in TAKEN: bad.append(2)
            form = True
            if card == b".model": form = len(args) == 1
            if card == b".names":
                form = len(args) >= 1
                if len(args) - 1 > MAX_INPUTS[0]: bad.append(7)
            if card == b".latch":
                form = 2 <= len(args) <= 5
                if len(args) in (3, 5): form = form and args[-1] in (b"0", b"1", b"2", b"3")
                if len(args) in (4, 5):
                    form = form and args[2] in (b"re", b"fe", b"ah", b"al", b"as")
                    if form and args[2] in (b"ah", b"al", b"as"): bad.append(9)
            if card == b".subckt": form = len(args) >= 1 and all(BIND.match(w) for w in args[1:])
            if card == b".end": form = not args
            if not form: bad.append(3)
            if card != b".model" and model is None: bad.append(8)
        else:
            if table is None: bad.append(4)
            else:
                k = len(table["in"])
                if k > 0: good = len(ws) == 2 and len(ws[0]) == k and ROW.match(ws[0]) and ws[1] in (b"0", b"1")
                else: good = len(ws) == 1 and ws[0] in (b"0", b"1")
                if not good: bad.append(5)
                elif table["end"] is not None and ws[-1] != table["end"]: bad.append(6)
        if bad: return ("bad", number, min(bad))
        if not card.startswith(b"."):
            table["end"] = ws[-1] if table["end"] is None else table["end"]
            table["rows"].append(ws[0] if table["in"] else b"")
            continue
        close_table()
        if card == b".model":
            close_model()
            model = {"name": args[0], "in": [], "out": [], "tables": [], "latches": [], "instances": [], "line": number}
        elif card == b".inputs": model["in"] += args
        elif card == b".outputs": model["out"] += args
        elif card == b".names": table = {"in": args[:-1], "out": args[-1], "end": None, "rows": [], "line": number}
        elif card == b".latch":
            init = int(args[-1]) if len(args) in (3, 5) else 3
            control = None
            if len(args) >= 4: control = (args[2].decode(), None if args[3] == b"NIL" else args[3])
            model["latches"].append(Latch(args[0], args[1], control, init, number))
        elif card == b".subckt":
            model["instances"].append(Instance(args[0], tuple(tuple(w.split(b"=", 1)) for w in args[1:]), number))
        elif card == b".end": close_model()
    if not any_words: return ("bad", len(text_lines(text)) + 1, 8)
    close_model()
    return ("ok", tuple(models))

def show(file):
    out = []
    def put(*ws):
        s = b" ".join(ws)
        out.append(s + (b" \n" if s.endswith(b"\\") else b"\n"))
    for m in file:
        put(b".model", m.name)
        if m.inputs: put(b".inputs", *m.inputs)
        if m.outputs: put(b".outputs", *m.outputs)
        for t in m.tables:
            put(b".names", *t.inputs, t.output)
            for r in t.rows:
                if r: put(r, b"1" if t.on else b"0")
                else: put(b"1" if t.on else b"0")
        for l in m.latches:
            if l.control: put(b".latch", l.input, l.output, l.control[0].encode(), l.control[1] or b"NIL", str(l.init).encode())
            else: put(b".latch", l.input, l.output, str(l.init).encode())
        for i in m.instances: put(b".subckt", i.unit, *[f + b"=" + a for f, a in i.bindings])
        put(b".end")
    return b"".join(out)

NAME = re.compile(rb"[^\x00-\x20\x7f#]+\Z")
def good(file):
    ok = len(file) > 0
    for m in file:
        names = [m.name, *m.inputs, *m.outputs]
        seen = []
        for t in m.tables:
            names += [*t.inputs, t.output]
            ok = ok and len(t.inputs) <= MAX_INPUTS[0] and {len(r) for r in t.rows} <= {len(t.inputs)} and (t.on or len(t.rows) > 0)
            seen.append(t.line)
        for l in m.latches:
            names += [l.input, l.output]
            if l.control and l.control[1] is not None:
                names.append(l.control[1])
                ok = ok and l.control[1] != b"NIL"
            ok = ok and l.init in (0, 1, 2, 3)
            seen.append(l.line)
        for i in m.instances:
            names.append(i.unit)
            for f, a in i.bindings:
                names += [f, a]
                ok = ok and b"=" not in f
            seen.append(i.line)
        ok = ok and all(NAME.match(n) for n in names) and len(set(seen)) == len(seen)
    return bool(ok)

# ---------------------------------------------------------------- section 2
class Hierarchy:
    """The file without the first five refusals, with its signals as classes of pairs of a path and a name. A path is a tuple of
    places in the lists of instances, from the main model down."""
    def __init__(self, file):
        self.file = file
        self.by_name = {m.name: m for m in file}
        self.main = file[0]
        self.parent = {}
        self.parts = []          # (path, card) in expanded order
        self.walk((), self.main)
    def find(self, pair):
        p = self.parent
        p.setdefault(pair, pair)
        while p[pair] != pair: pair = p[pair]
        return pair
    def walk(self, path, model):
        for n in words_of_model(model): self.find((path, n))
        cards = sorted([(t.line, "t", t, None) for t in model.tables] + [(l.line, "l", l, None) for l in model.latches]
                       + [(i.line, "i", i, k) for k, i in enumerate(model.instances)], key=lambda c: c[0])
        for _, sort, card, k in cards:
            if sort == "i":
                below = path + (k,)
                for formal, actual in card.bindings:
                    a, b = self.find((below, formal)), self.find((path, actual))
                    if a != b: self.parent[a] = b
                self.walk(below, self.by_name[card.unit])
            else: self.parts.append((path, card))
    def finish(self):
        """The class of each pair as a frozen number."""
        roots = {}
        self.klass = {}
        for pair in list(self.parent):
            self.klass[pair] = roots.setdefault(self.find(pair), len(roots))
        self.main_name = {c: n for (path, n), c in self.klass.items() if path == ()}
        return self
    def of(self, path, name): return self.klass[(path, name)]

def words_of_model(m):
    out = set(m.inputs) | set(m.outputs)
    for t in m.tables: out |= set(t.inputs) | {t.output}
    for l in m.latches:
        out |= {l.input, l.output}
        if l.control and l.control[1]: out.add(l.control[1])
    for i in m.instances: out |= {a for _, a in i.bindings}
    return out

def first_five(file):
    seen = set()
    for m in file:
        if m.name in seen: return ("At", 10, m.line, m.name)
        seen.add(m.name)
    for m in file:
        for ports in (m.inputs, m.outputs):
            if len(set(ports)) == len(ports): continue
            for n in ports:
                if ports.count(n) >= 2: return ("At", 11, m.line, n)
    for m in file:
        for i in m.instances:
            if i.unit not in seen: return ("At", 12, i.line, i.unit)
    by_name = {m.name: m for m in file}
    for m in file:
        for i in m.instances:
            unit = by_name[i.unit]
            bound = [f for f, _ in i.bindings]
            for f in bound:
                if (f not in unit.inputs and f not in unit.outputs) or bound.count(f) > 1: return ("At", 13, i.line, f)
            for n in unit.inputs:
                if n not in bound: return ("At", 13, i.line, n)
    reach = {m.name: {i.unit for i in m.instances} for m in file}
    for k in by_name:
        for a in by_name:
            if k in reach[a]: reach[a] |= reach[k]
    for m in file:
        for i in m.instances:
            if i.unit == m.name or m.name in reach[i.unit]: return ("At", 14, i.line, i.unit)
    return None

def count_limits(file, limits):
    by_name = {m.name: m for m in file}
    memo = {}
    def totals(name):
        if name not in memo:
            m = by_name[name]
            got = [len(words_of_model(m)), 1, sum((len(t.inputs) + 1) * (len(t.rows) + 1) for t in m.tables), len(m.latches)]
            for i in m.instances: got = [a + b for a, b in zip(got, totals(i.unit))]
            memo[name] = got
        return memo[name]
    s, i, l, k = totals(file[0].name)
    k += len(file[0].outputs)
    for word, count in (("signals", s), ("instances", i), ("letters", l), ("sinks", k)):
        if count > limits[word]: return ("TooMany", word, min(count, 2 ** 64 - 1))
    return None

def flatten(file, limits):
    """("no", refusal) or ("yes", network, levels by class, width, hierarchy)."""
    r = first_five(file) or count_limits(file, limits)
    if r: return ("no", r)
    h = Hierarchy(file).finish()
    main = file[0]
    driven = {h.of((), n) for n in main.inputs}
    for path, c in h.parts:
        s = h.of(path, c.output)
        if s in driven: return ("no", ("At", 15, c.line, c.output))
        driven.add(s)
    reads = lambda c: list(c.inputs) if isinstance(c, Table) else [c.input]
    for path, c in h.parts:
        for n in reads(c):
            if h.of(path, n) not in driven: return ("no", ("At", 16, c.line, n))
    for n in main.outputs:
        if h.of((), n) not in driven: return ("no", ("At", 16, main.line, n))
    # cycles: transitive closure by bits over the outputs of tables
    feeds = {}
    for path, c in h.parts:
        if isinstance(c, Table):
            bits = 0
            for n in c.inputs: bits |= 1 << h.of(path, n)
            feeds[h.of(path, c.output)] = bits
    while True:
        new = {}
        for s, bits in feeds.items():
            b = bits
            for t, more in feeds.items():
                if bits >> t & 1: b |= more
            new[s] = b
        if new == feeds: break
        feeds = new
    for path, c in h.parts:
        if isinstance(c, Table):
            s = h.of(path, c.output)
            if feeds[s] >> s & 1: return ("no", ("At", 17, c.line, c.output))
    typed = [(path, l) for path, l in h.parts if isinstance(l, Latch) and l.control]
    edges, signals = set(), set()
    for path, l in typed:
        s = None if l.control[1] is None else h.of(path, l.control[1])
        if edges - {l.control[0]} or (s is not None and signals - {s}): return ("no", ("At", 18, l.line, l.output))
        edges.add(l.control[0])
        if s is not None: signals.add(s)
    control = None
    for path, l in typed:
        if l.control[1] is not None:
            control, word = h.of(path, l.control[1]), l.control[1]
            break
    if control is not None:
        for path, c in h.parts:
            if control in [h.of(path, n) for n in reads(c)] + [h.of(path, c.output)]: return ("no", ("At", 19, c.line, word))
        for n in main.outputs:
            if h.of((), n) == control: return ("no", ("At", 19, main.line, word))
    # the network
    level = {h.of((), n): 0 for n in main.inputs}
    ts, ls = [], []
    for path, c in h.parts:
        if isinstance(c, Latch):
            level[h.of(path, c.output)] = 0
            ls.append((path, c))
    todo = [(path, c) for path, c in h.parts if isinstance(c, Table)]
    while todo:
        later = []
        for path, c in todo:
            ins = [h.of(path, n) for n in c.inputs]
            if all(s in level for s in ins): level[h.of(path, c.output)] = 1 + max([level[s] for s in ins], default=0)
            else: later.append((path, c))
        todo = later
    ts = sorted([(path, c) for path, c in h.parts if isinstance(c, Table)], key=lambda p: level[h.of(p[0], p[1].output)])
    order = [h.of((), n) for n in main.inputs if h.of((), n) != control]
    inputs = len(order)
    order += [h.of(path, l.output) for path, l in ls] + [h.of(path, t.output) for path, t in ts]
    number = {s: k for k, s in enumerate(order)}
    width = 1
    while any(re.match(rb"w{%d}[0-9]+\Z" % width, n) for n in words_of_model(main)): width += 1
    names = [h.main_name.get(s, b"w" * width + b"%d" % k) for k, s in enumerate(order)]
    net = Network(main.name, tuple(names), inputs, tuple(number[h.of((), n)] for n in main.outputs),
                  tuple(NetLatch(number[h.of(p, l.input)], l.init == 1) for p, l in ls),
                  tuple(NetTable(tuple(number[h.of(p, n)] for n in t.inputs), t.on, t.rows) for p, t in ts))
    return ("yes", net, level, width, h, control)

def table_value(t, ins):
    hit = False
    for row in t.rows:
        if all(x == "-" or int(x) == v for x, v in zip(row.decode(), ins)): hit = True
    if not t.rows: return 0
    return int(hit) if t.on else int(not hit)

def run(flat, stream):
    """The cycles of the hierarchy itself: outputs and next states, as bits."""
    _, net, level, width, h, control = flat
    main = h.file[0]
    latches = [(p, l) for p, l in h.parts if isinstance(l, Latch)]
    tables = {h.of(p, t.output): (p, t) for p, t in h.parts if isinstance(t, Table)}
    pins = [n for n in main.inputs if h.of((), n) != control]
    state = [1 if l.init == 1 else 0 for _, l in latches]
    out = []
    for bits in stream:
        value = {h.of((), n): b for n, b in zip(pins, bits)}
        value.update({h.of(p, l.output): b for (p, l), b in zip(latches, state)})
        def of(s):
            if s not in value:
                p, t = tables[s]
                value[s] = table_value(t, [of(h.of(p, n)) for n in t.inputs])
            return value[s]
        outs = [of(h.of((), n)) for n in main.outputs]
        state = [of(h.of(p, l.input)) for p, l in latches]
        out.append((outs, state))
    return out

# ---------------------------------------------------------------- section 8
def stimulus(text, width):
    """("ok", cycles) or ("bad", line, kind)."""
    cycles = []
    for number, line in enumerate(text_lines(text), 1):
        s = line.partition(b"#")[0].replace(b" ", b"").replace(b"\t", b"")
        if not s: continue
        if set(s) - set(b"01-" if width == 0 else b"01"): return ("bad", number, "BadLetter")
        if (width and len(s) != width) or (not width and s != b"-"): return ("bad", number, "BadLength")
        cycles.append([int(chr(b)) for b in s] if width else [])
    return ("ok", cycles)
def cycle_text(cycles, runs):
    bits = lambda bs: "".join(map(str, bs)) or "-"
    return "".join("cycle %d in %s out %s\n" % (k, bits(p), bits(o)) for k, (p, (o, _)) in enumerate(zip(cycles, runs))).encode()
def told(file, r):
    """The line on err of a refusal."""
    if r[0] == "bad" and isinstance(r[2], int): return b"domsyn: %s:%d: blif %d %s\n" % (file, r[1], r[2], KIND_WORDS[r[2]].encode())
    if r[0] == "bad": return b"domsyn: %s:%d: stim %s\n" % (file, r[1], r[2].encode())
    if r[0] == "TooMany": return b"domsyn: %s: blif 20 TooMany %s %d\n" % (file, r[1].encode(), r[2])
    return b"domsyn: %s:%d: blif %d %s %s\n" % (file, r[2], r[1], KIND_WORDS[r[1]].encode(), r[3])
