"""A reader of BLIF and an interpreter of hierarchies, by the rules of the formats (04, sections 1 and 2). Own code of the judge: a signal is
looked up through the instances each time it is asked for; no list of one model is made of the hierarchy."""

NUMBER = {"ControlByte": 1, "UnknownCard": 2, "BadCard": 3, "RowOutsideTable": 4, "BadRow": 5, "MixedCover": 6, "TooWide": 7, "NoModel": 8,
          "LatchKind": 9, "DuplicateModel": 10, "DuplicatePort": 11, "UnknownModel": 12, "BadFormal": 13, "Recursion": 14, "DrivenTwice": 15,
          "Undriven": 16, "Cycle": 17, "TwoControls": 18, "ControlUsed": 19}
CARDS = {b".model", b".inputs", b".outputs", b".names", b".latch", b".subckt", b".clock", b".end"}
CONTROLS = set(range(32)) - {9} | {127}


class Refuse(Exception):
    def __init__(self, kind, line, name=None):
        self.kind, self.line, self.name = kind, line, name

    def text(self, file):
        return b"domsyn: %s:%d: blif %d %s%s\n" % (file, self.line, NUMBER[self.kind], self.kind.encode(), b"" if self.name is None else b" " + self.name)


class Table:
    __slots__ = ("inputs", "output", "rows", "on", "line")

    def __init__(self, inputs, output, line):
        self.inputs, self.output, self.line, self.rows, self.on = inputs, output, line, [], True


class Latch:
    __slots__ = ("input", "output", "edge", "control", "init", "line")

    def __init__(self, input, output, edge, control, init, line):
        self.input, self.output, self.edge, self.control, self.init, self.line = input, output, edge, control, init, line


class Call:
    __slots__ = ("unit", "binds", "line")

    def __init__(self, unit, binds, line):
        self.unit, self.binds, self.line = unit, binds, line


class Model:
    def __init__(self, name, line):
        self.name, self.line, self.inputs, self.outputs, self.items = name, line, [], [], []


def logical(text):
    """The logical lines (number, bytes), and the count of lines."""
    lines = text.split(b"\n")
    if lines[-1] == b"":
        lines.pop()
    out, at = [], 0
    while at < len(lines):
        first, whole = at + 1, b""
        while True:
            s = lines[at]
            at += 1
            if s.endswith(b"\r"):
                s = s[:-1]
            cut = s.find(b"#")
            if cut >= 0:
                s = s[:cut]
            if not s.endswith(b"\\"):
                whole += s
                break
            whole += s[:-1] + b" "
            if at == len(lines):
                break
        out.append((first, whole))
    return out, len(lines)


def words_of(line):
    return [w for w in line.replace(b"\t", b" ").split(b" ") if w]


def read(text):
    models, model, table, some = [], None, None, False
    lines, count = logical(text)
    for number, line in lines:
        words = words_of(line)
        if not words:
            continue
        some = True
        if not CONTROLS.isdisjoint(line):
            raise Refuse("ControlByte", number)
        head, rest = words[0], words[1:]
        if not head.startswith(b"."):
            if table is None:
                raise Refuse("RowOutsideTable", number)
            k = len(table.inputs)
            letters = words[0] if k else b""
            good = len(words) == (2 if k else 1) and words[-1] in (b"0", b"1") and len(letters) == k and all(c in b"01-" for c in letters)
            if not good:
                raise Refuse("BadRow", number)
            on = words[-1] == b"1"
            if table.rows and on != table.on:
                raise Refuse("MixedCover", number)
            table.on = on
            table.rows.append(letters.decode())
            continue
        table = None
        if head not in CARDS:
            raise Refuse("UnknownCard", number)
        kind, late = None, None
        if head == b".model":
            if len(rest) != 1:
                raise Refuse("BadCard", number)
            model = Model(rest[0], number)
            models.append(model)
            continue
        item = None
        if head == b".names":
            if not rest:
                raise Refuse("BadCard", number)
            if len(rest) > 4097:
                raise Refuse("TooWide", number)
            item = Table(rest[:-1], rest[-1], number)
        elif head == b".latch":
            n = len(rest)
            if not 2 <= n <= 5:
                raise Refuse("BadCard", number)
            if n in (3, 5) and rest[-1] not in (b"0", b"1", b"2", b"3"):
                raise Refuse("BadCard", number)
            if n >= 4 and rest[2] not in (b"re", b"fe", b"ah", b"al", b"as"):
                raise Refuse("BadCard", number)
            init = int(rest[-1]) if n in (3, 5) else 3
            edge = rest[2] if n >= 4 else None
            late = "LatchKind" if edge in (b"ah", b"al", b"as") else None
            item = Latch(rest[0], rest[1], edge, rest[3] if n >= 4 and rest[3] != b"NIL" else None, init, number)
        elif head == b".subckt":
            binds = []
            if not rest:
                raise Refuse("BadCard", number)
            for w in rest[1:]:
                cut = w.find(b"=")
                if cut < 1 or cut == len(w) - 1:
                    raise Refuse("BadCard", number)
                binds.append((w[:cut], w[cut + 1:]))
            item = Call(rest[0], binds, number)
        elif head == b".end" and rest:
            raise Refuse("BadCard", number)
        if model is None:
            raise Refuse("NoModel", number)
        if late:
            raise Refuse(late, number)
        if head == b".inputs":
            model.inputs += rest
        elif head == b".outputs":
            model.outputs += rest
        elif head == b".end":
            model = None
        elif item is not None:
            model.items.append(item)
            if isinstance(item, Table):
                table = item
    if not some:
        raise Refuse("NoModel", count + 1)
    return models


class Place:
    """A model at a place: what its formals are bound to one level up, and the places of its instances."""

    def __init__(self, world, model, up, binds):
        self.model, self.up, self.binds, self.id = model, up, binds, len(world.places)
        world.places.append(self)
        self.kids = {}
        for i, item in enumerate(model.items):
            if isinstance(item, Call):
                self.kids[i] = Place(world, world.by_name[item.unit], self, dict(item.binds))

    def signal(self, name):
        """The place and name that stand for a signal: as far up as it is bound."""
        place = self
        while place.up is not None and name in place.binds:
            name, place = place.binds[name], place.up
        return place, name


class World:
    """A text with a network, and the values that it has. Refuses a text without a network."""

    def __init__(self, models):
        self.models, self.by_name, self.places = models, {}, []
        self.check_models()
        self.root = Place(self, models[0], None, {})
        self.check_places()
        main = models[0]
        self.inputs = [n for n in main.inputs if self.control is None or (self.root, n) != self.control]
        self.outputs = list(main.outputs)
        self.latches = [(p, i) for p, i, item in self.cards() if isinstance(item, Latch)]
        self.inits = [int(p.model.items[i].init == 1) for p, i in self.latches]
        self.latch_at = {(p.id, i): k for k, (p, i) in enumerate(self.latches)}
        self.deep = len(self.places)

    # what is refused, order by order

    def check_models(self):
        for m in self.models:
            if m.name in self.by_name:
                raise Refuse("DuplicateModel", m.line, m.name)
            self.by_name[m.name] = m
        for m in self.models:
            for names in (m.inputs, m.outputs):
                for k, n in enumerate(names):
                    if n in names[:k]:
                        raise Refuse("DuplicatePort", m.line, n)
        calls = [(m, c) for m in self.models for c in m.items if isinstance(c, Call)]
        for m, c in calls:
            if c.unit not in self.by_name:
                raise Refuse("UnknownModel", c.line, c.unit)
        for m, c in calls:
            unit, seen = self.by_name[c.unit], set()
            for f, a in c.binds:
                if f in seen or (f not in unit.inputs and f not in unit.outputs):
                    raise Refuse("BadFormal", c.line, f)
                seen.add(f)
            for n in unit.inputs:
                if n not in seen:
                    raise Refuse("BadFormal", c.line, n)

        def reaches(name, goal, seen):
            if name == goal:
                return True
            if name in seen:
                return False
            seen.add(name)
            return any(reaches(c.unit, goal, seen) for c in self.by_name[name].items if isinstance(c, Call))
        for m, c in calls:
            if reaches(c.unit, m.name, set()):
                raise Refuse("Recursion", c.line, c.unit)

    def cards(self, place=None):
        """Tables and latches in expanded order: (place, place in the model's cards, card)."""
        place = place or self.root
        for i, item in enumerate(place.model.items):
            if isinstance(item, Call):
                yield from self.cards(place.kids[i])
            else:
                yield place, i, item

    def check_places(self):
        main, root = self.models[0], self.root
        cards = list(self.cards())
        driven = {(root, n): None for n in main.inputs}
        for p, i, item in cards:
            s = p.signal(item.output)
            if s in driven:
                raise Refuse("DrivenTwice", item.line, item.output)
            driven[s] = (p, item)
        reads = []
        for p, i, item in cards:
            for n in (item.inputs if isinstance(item, Table) else [item.input]):
                reads.append((p.signal(n), item.line, n, item))
        reads += [((root, n), main.line, n, None) for n in main.outputs]
        for s, line, n, item in reads:
            if s not in driven:
                raise Refuse("Undriven", line, n)
        # a signal depends on itself: what a table's output needs, closed
        for p, i, item in cards:
            if isinstance(item, Table):
                goal, todo, seen = p.signal(item.output), [(p, item)], set()
                while todo:
                    q, t = todo.pop()
                    for n in t.inputs:
                        s = q.signal(n)
                        if s == goal:
                            raise Refuse("Cycle", item.line, item.output)
                        if s not in seen:
                            seen.add(s)
                            d = driven[s]
                            if d and isinstance(d[1], Table):
                                todo.append(d)
        edge, self.control, word = None, None, None
        for p, i, item in cards:
            if isinstance(item, Latch) and item.edge:
                s = p.signal(item.control) if item.control is not None else None
                if (edge and item.edge != edge) or (s and self.control and s != self.control):
                    raise Refuse("TwoControls", item.line, item.output)
                edge = item.edge
                if s and not self.control:
                    self.control, word = s, item.control
        if self.control:
            for p, i, item in cards:
                names = [item.output] + (item.inputs if isinstance(item, Table) else [item.input])
                if any(p.signal(n) == self.control for n in names):
                    raise Refuse("ControlUsed", item.line, word)
            if any((root, n) == self.control for n in main.outputs):
                raise Refuse("ControlUsed", main.line, word)

    # the values

    def driver(self, place, name):
        """The place and the card that drive a signal which isn't bound further up: in its place, or below it."""
        for i, item in enumerate(place.model.items):
            if isinstance(item, Call):
                for f, a in item.binds:
                    if a == name:
                        found = self.driver(place.kids[i], f)
                        if found:
                            return found
            elif item.output == name:
                return place, i
        return None

    def found(self, place, name):
        memo = self.__dict__.setdefault("memo", {})
        key = (place.id, name)
        if key not in memo:
            p, n = place.signal(name)
            memo[key] = (p, n, None if p is self.root and n in p.model.inputs else self.driver(p, n))
        return memo[key]

    def values(self, pins, state, mask):
        """(outputs, next state) where each input and each latch has a word of bits."""
        given, known = dict(zip(self.inputs, pins)), {}

        def value(place, name):
            p, n, d = self.found(place, name)
            if d is None:
                return given[n]
            q, i = d
            key = (q.id, i)
            if key in known:
                return known[key]
            item = q.model.items[i]
            if isinstance(item, Latch):
                v = state[self.latch_at[key]]
            else:
                ins = [value(q, m) for m in item.inputs]
                v = 0
                for row in item.rows:
                    one = mask
                    for letter, bits in zip(row, ins):
                        if letter == "1":
                            one &= bits
                        elif letter == "0":
                            one &= bits ^ mask
                    v |= one
                if not item.on:
                    v ^= mask
            known[key] = v
            return v
        outs = [value(self.root, n) for n in self.outputs]
        return outs, [value(p, p.model.items[i].input) for p, i in self.latches]

    def run(self, stream):
        """(outputs, state after) of each cycle."""
        state, out = list(self.inits), []
        for pins in stream:
            o, state = self.values(pins, state, 1)
            out.append((o, state))
        return out


COLUMNS = {}


def columns(n):
    """For each of n variables the word of its values over all 2^n patterns."""
    if n not in COLUMNS:
        size = 1 << n
        COLUMNS[n] = [sum(1 << k for k in range(size) if k >> v & 1) for v in range(n)]
    return COLUMNS[n]


def compare(a, b, r):
    """What differs between two worlds over all streams: None, or a line. Inputs, outputs and latches are as many."""
    i, l = len(a.inputs), len(a.latches)
    if len(b.inputs) != i or len(b.outputs) != len(a.outputs) or len(b.latches) != l:
        return "counts of inputs, outputs or latches"
    n = i + l
    if n > 12:  # by long random streams side by side
        state, other, width = [(1 << 256) - 1 if x else 0 for x in a.inits], [(1 << 256) - 1 if x else 0 for x in b.inits], (1 << 256) - 1
        for c in range(40):
            pins = [r.getrandbits(256) for _ in range(i)]
            (o, state), (p, other) = a.values(pins, state, width), b.values(pins, other, width)
            if o != p or state != other:
                return "cycle %d of random streams" % c
        return None
    cols = columns(n)
    mask = (1 << (1 << n)) - 1
    if not hasattr(a, "whole"):
        a.whole = a.values(cols[:i], cols[i:], mask)
    fa, fb = a.whole, b.values(cols[:i], cols[i:], mask)
    if fa == fb and a.inits == b.inits:
        return None
    word = lambda bits: sum(x << k for k, x in enumerate(bits))
    todo, seen = [(word(a.inits), word(b.inits), ())], set()
    while todo:
        s, t, path = todo.pop()
        if (s, t) in seen:
            continue
        seen.add((s, t))
        for pins in range(1 << i):
            x, y = s << i | pins, t << i | pins
            oa, ob = [w >> x & 1 for w in fa[0]], [w >> y & 1 for w in fb[0]]
            na, nb = [w >> x & 1 for w in fa[1]], [w >> y & 1 for w in fb[1]]
            if oa != ob or na != nb:
                return "cycle %d after the inputs %s: outputs %s and %s, next %s and %s" % (len(path), path + (pins,), oa, ob, na, nb)
            todo.append((word(na), word(nb), path + (pins,)))
    return None


def gates(world):
    """The And and Or nodes of the tables (04, section 3), and what the outputs and then the latches take: (`c`, bit), (`l`, leaf, sign) or
    (`n`, node, sign). Not is a change of the sign."""
    nodes, known = [], {}
    leaf_of = {n: k for k, n in enumerate(world.inputs)}
    first = len(leaf_of)

    def neg(x):
        return ("c", not x[1]) if x[0] == "c" else (x[0], x[1], not x[2])

    def op(kind, a, b):
        for x, y in ((a, b), (b, a)):
            if x[0] == "c":
                return y if x[1] == (kind == "and") else x
        nodes.append((kind, a, b))
        return ("n", len(nodes) - 1, True)

    def bal(kind, items):
        if not items:
            return ("c", kind == "and")
        if len(items) == 1:
            return items[0]
        h = (len(items) + 1) // 2
        a = bal(kind, items[:h])
        return op(kind, a, bal(kind, items[h:]))

    def ref(place, name):
        p, n, d = world.found(place, name)
        if d is None:
            return ("l", leaf_of[n], True)
        q, i = d
        key = (q.id, i)
        if key not in known:
            item = q.model.items[i]
            if isinstance(item, Latch):
                known[key] = ("l", first + world.latch_at[key], True)
            else:
                ins = [ref(q, m) for m in item.inputs]
                rows = [bal("and", [x if c == "1" else neg(x) for c, x in zip(row, ins) if c != "-"]) for row in item.rows]
                v = bal("or", rows)
                known[key] = v if item.on else neg(v)
        return known[key]
    sinks = [ref(world.root, n) for n in world.outputs] + [ref(p, p.model.items[i].input) for p, i in world.latches]
    return nodes, sinks


def needed(nodes, sinks, signs):
    """The pairs (node, sign) that the sinks with these signs need."""
    todo = [(s[1], s[2] == g) for s, g in zip(sinks, signs) if s[0] == "n"]
    pairs = set(todo)
    while todo:
        node, sign = todo.pop()
        for x in nodes[node][1:]:
            if x[0] == "n":
                p = (x[1], x[2] == sign)
                if p not in pairs:
                    pairs.add(p)
                    todo.append(p)
    return pairs


def settled(nodes, sinks):
    """The signs: in passes over the sinks each is changed where that lowers the number of pairs."""
    signs = [True] * len(sinks)
    best, again = len(needed(nodes, sinks, signs)), True
    while again:
        again = False
        for k in range(len(sinks)):
            if sinks[k][0] == "n":
                signs[k] = not signs[k]
                now = len(needed(nodes, sinks, signs))
                if now < best:
                    best, again = now, True
                else:
                    signs[k] = not signs[k]
    return signs
