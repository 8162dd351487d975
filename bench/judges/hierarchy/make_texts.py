"""Random hostile texts: cards in and out of place and form, rows, joins, comments, CR, NUL and other odd bytes."""
NAMES = [b"a", b"b", b"c", b"f", b"g", b"x", b"y", b"q", b"n0", b"w0", b"ww1", b"NIL", b"a=b", b"=", b"d[0]", b"a\\", b"\\", b"\xc3\xa9", b".x", b"A",
         b"0", b"1", b"-", b"re", b"a.b", b"$t", b"\x80", b"\xff", b"\\\\"]
BLANKS = [b" "] * 8 + [b"\t", b"  ", b" \t ", b"\t\t"]
ODD = [b"\x00", b"\x7f", b"\x0b", b"\x0c", b"\r", b"\x1f", b"\x01", b"\x80", b"#", b"\\", b"=", b".", b"-", b"0", b"\n", b"\r\n", b" ", b"\t", b"\\\n", b"#\\\n", b"\\\r\n", b"\x0a\x0d"]

def name(r): return r.choice(NAMES)
def names(r, most): return [name(r) for _ in range(r.randint(0, most))]

def card(r, state):
    """The words of a line, in form most of the time; state is [model open, width of the open table or None, its last letter or None]."""
    x = r.random()
    if state[1] is not None and x < 0.45:
        k = state[1]
        end = state[2] or r.choice([b"0", b"1"])
        if state[2] and r.random() < 0.08: end = b"1" if end == b"0" else b"0"
        if r.random() < 0.04: end = r.choice([b"0", b"1", b"-", b"2", b"11", b"."])
        n = k if r.random() > 0.06 else max(0, k + r.choice([-1, 1]))
        letters = bytes(r.choice(b"01-") for _ in range(n))
        if r.random() < 0.04: letters += bytes([r.choice(b"2x.~#=")])
        if state[2] is None: state[2] = end
        ws = ([letters] if letters else []) + [end]
        if r.random() < 0.03: ws.append(name(r))
        if r.random() < 0.03: ws = ws[:-1] or [b"1"]
        return ws
    if not state[0]:
        if x < 0.9:
            state[0] = True
            state[1] = None
            return [b".model"] + ([name(r)] if r.random() < 0.96 else names(r, 2))
        return other(r, state)
    y = r.random()
    if y < 0.15:
        state[1] = None
        return [r.choice([b".inputs", b".outputs"])] + names(r, 4)
    if y < 0.45:
        ns = names(r, 4 if r.random() < 0.9 else 8)
        if not ns and r.random() < 0.9: ns = [name(r)]
        state[1], state[2] = max(0, len(ns) - 1), None
        return [b".names"] + ns
    if y < 0.62:
        state[1] = None
        ws = [name(r), name(r)]
        z = r.random()
        if z < 0.5: ws += [r.choice([b"re", b"fe"] * 10 + [b"ah", b"al", b"as", b"r", b"0"]), r.choice([b"NIL", b"clk", b"a", b"c"])]
        if z < 0.25 or 0.5 <= z < 0.75: ws.append(r.choice([b"0", b"1", b"2", b"3"] * 8 + [b"4", b"01", b"x", b"re"]))
        if r.random() < 0.03: ws = ws[:r.randint(0, len(ws))]
        if r.random() < 0.02: ws += names(r, 2)
        return [b".latch"] + ws
    if y < 0.76:
        state[1] = None
        bs = []
        for _ in range(r.randint(0, 3)):
            bs.append(name(r) + b"=" + name(r))
            if r.random() < 0.03: bs[-1] = r.choice([b"=x", b"x=", b"x", b"=", b"x==", b"x==y", b"==y"])
        return [b".subckt"] + ([name(r)] if r.random() < 0.96 else []) + bs
    if y < 0.82:
        state[1] = None
        return [b".clock"] + names(r, 2)
    if y < 0.90:
        state[0], state[1] = False, None
        return [b".end"] + (names(r, 1) if r.random() < 0.06 else [])
    if y < 0.98:
        state[0], state[1] = True, None
        return [b".model", name(r)]
    return other(r, state)

def other(r, state):
    x = r.random()
    if x < 0.3: return [r.choice([b".gate", b".", b".foo", b".MODEL", b".exdc", b".names1", b"..names", b".end.", b".search", b".attr", b".inputs\\"])] + names(r, 2)
    if x < 0.6: return [r.choice([b"1", b"0", b"11", b"model", b"-", b"names"])] + names(r, 1)
    if x < 0.8: return [r.choice([b".end", b".names", b".latch", b".inputs", b".clock", b".subckt", b".outputs"])] + names(r, 3)
    return []

def line(r, ws, calm):
    out = b"" if r.random() < 0.8 else r.choice(BLANKS)
    for k, w in enumerate(ws):
        if k:
            out += r.choice(BLANKS)
            if r.random() < (0.02 if calm else 0.08): out += r.choice([b"\\\n", b"\\\r\n", b"\\#c\n", b"\\# d\\\n", b"\\\n\\\n", b"\\\n#e\n"])
        if not calm and r.random() < 0.02 and len(w) > 1:
            c = r.randint(1, len(w) - 1)
            w = w[:c] + r.choice([b"\\\n", b"\\\n ", b"\\\r\n"]) + w[c:]
        out += w
    if r.random() < 0.1: out += r.choice(BLANKS)
    if r.random() < 0.08: out += r.choice([b"# x", b"#", b"#\\", b" # .end", b"#\x00", b" #\x7f\\"])
    if r.random() < 0.04: out += r.choice([b"\\", b"\\ ", b" \\", b" \\\\"])
    if r.random() < 0.1: out += b"\r" if r.random() < 0.9 else b"\r\r"
    return out + b"\n"

def text(r):
    calm = r.random() < 0.5
    state = [False, None, None]
    out = b""
    for _ in range(r.randint(0, 12)):
        if r.random() < 0.1: out += r.choice([b"\n", b" \n", b"# c\n", b"\t#\\\n", b"\r\n", b"\\\n", b" \\\r\n", b"#\r\n"])
        out += line(r, card(r, state), calm)
    x = r.random()
    if x < 0.25 and out.endswith(b"\n"): out = out[:-1]
    if not calm:
        for _ in range(r.choice([0, 0, 1, 1, 2, 3])):
            k = r.randint(0, len(out))
            y = r.random()
            if y < 0.6: out = out[:k] + r.choice(ODD) + out[k:]
            elif y < 0.8: out = out[:k] + out[k + r.randint(1, 4):]
            else: out = out[:k] + bytes([r.randrange(256)]) + out[k + 1:]
    return out

def small(r):
    """A few bytes of a small alphabet."""
    pieces = [b"a", b"1", b"0", b"-", b" ", b"\t", b"\n", b"\r", b"\\", b"#", b".", b"=", b".model m\n", b".names f\n", b".names a f\n", b".end", b".inputs", b"\x00", b".latch a b"]
    return b"".join(r.choice(pieces) for _ in range(r.randint(0, 9)))
