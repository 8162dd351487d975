"""The definitions of crates/{dom_base,blif_ast,model_calls,net_flatten,net_run,stim_text,domsyn}/specs, copied by hand, one function per
definition. Lists are tuples or bytes. Candidates are checked; nothing is found by the product's way."""
from data import *

# ---------------------------------------------------------------- dom_base/specs/Lines
def is_blank(b): return b == 32 or b == 9
def is_control(b): return (b < 32 and not b == 9) or b == 127

def slice_split(p, xs):
    out, start = [], 0
    for k, x in enumerate(xs):
        if p(x):
            out.append(xs[start:k])
            start = k + 1
    out.append(xs[start:])
    return out

def without_empty_last(pieces):
    if not pieces: return []
    last = pieces[-1]
    return pieces[:-1] + ([last] if len(last) > 0 else [])

def without_return(line): return line[:-1] if len(line) > 0 and line[-1] == 13 else line
def position_or_len(p, xs):
    n = 0
    for x in xs:
        if p(x): return n
        n += 1
    return n
def before_first(p, xs): return xs[:position_or_len(p, xs)]
def after_first(p, xs): return xs[position_or_len(p, xs) + 1:]
def without_comment(line): return before_first(lambda b: b == 35, line)
def lines(text): return [without_return(x) for x in without_empty_last(slice_split(lambda b: b == 10, text))]
def words(line): return [w for w in slice_split(is_blank, line) if len(w) > 0]
def first_word(ws): return ws[0] if ws else b""

# ---------------------------------------------------------------- blif_ast/specs/LogicalLines
def is_joined(line): return line[max(0, len(line) - 1):] == b"\\"
def with_blank(line): return line[:max(0, len(line) - 1)] + b" "
def with_next(number, line, nxt):
    if not nxt: return [(number, line)]
    return [(number, line + nxt[0][1])] + nxt[1:]
def with_line(number, line, nxt):
    return with_next(number, with_blank(line), nxt) if is_joined(line) else [(number, line)] + nxt
def joined_lines(number, all):
    out = []
    for k in range(len(all) - 1, -1, -1): out = with_line(number + k, all[k], out)
    return out
def logical_lines(text):
    all = [without_comment(x) for x in lines(text)]
    return [l for l in [(n, words(b)) for n, b in joined_lines(1, all)] if len(l[1]) > 0]

# ---------------------------------------------------------------- blif_ast/specs/Cards
MOST_INPUTS = [4096]  # scaled down by the scripts
CARDS = [b".model", b".inputs", b".outputs", b".names", b".latch", b".subckt", b".clock", b".end"]
def last_word(ws): return ws[-1] if ws else b""
def byte_at(w, k): return w[k] if 0 <= k < len(w) else 0
def last_letter(ws):
    w = last_word(ws)
    return byte_at(w, max(0, len(w) - 1))
def begins(word, line): return first_word(line[1]) == word
def is_card(line): return byte_at(first_word(line[1]), 0) == 46
def is_row(line): return not is_card(line)
def card_of(line):
    for c in CARDS:
        if c == first_word(line[1]): return c
    return None
def is_init(w): return w in (b"0", b"1", b"2", b"3")
def is_edge(w): return w in (b"re", b"fe")
def is_level(w): return w in (b"ah", b"al", b"as")
def is_type(w): return is_edge(w) or is_level(w)
def is_latch_form(ws):
    n = len(ws)
    if n == 3: return True
    if n == 4: return is_init(ws[3])
    if n == 5: return is_type(ws[3])
    if n == 6: return is_type(ws[3]) and is_init(ws[5])
    return False
def is_level_form(ws): return is_latch_form(ws) and 4 < len(ws) and is_level(ws[3] if len(ws) > 3 else b"")
def formal_of(w): return before_first(lambda b: b == 61, w)
def actual_of(w): return after_first(lambda b: b == 61, w)
def is_binding(w): return 0 < len(formal_of(w)) and 0 < len(actual_of(w))
def is_subckt_form(ws): return len(ws) >= 2 and all(is_binding(w) for w in ws[2:])
def is_form(card, ws):
    if card == b".model": return len(ws) == 2
    if card in (b".inputs", b".outputs", b".clock"): return True
    if card == b".names": return 1 < len(ws)
    if card == b".latch": return is_latch_form(ws)
    if card == b".subckt": return is_subckt_form(ws)
    return len(ws) == 1
def is_out_of_form(card, ws): return False if card is None else not is_form(card, ws)
def table_inputs(ws): return ws[1:][:max(0, len(ws) - 2)]
def is_too_wide(line): return begins(b".names", line) and MOST_INPUTS[0] < len(table_inputs(line[1]))
def is_value(w): return w in (b"0", b"1")
def is_letter(b): return b in (48, 49, 45)
def is_row_form(width, ws):
    if len(ws) == 1: return width == 0 and is_value(ws[0])
    if len(ws) == 2: return 0 < width and len(ws[0]) == width and all(is_letter(b) for b in ws[0]) and is_value(ws[1])
    return False

# ---------------------------------------------------------------- blif_ast/specs/Context; `before` has the nearest line first
def find_words(p, before):
    for l in before:
        if p(l): return l[1]
    return []
def is_model_open(before): return first_word(find_words(lambda l: begins(b".model", l) or begins(b".end", l), before)) == b".model"
def is_table_open(before): return first_word(find_words(is_card, before)) == b".names"
def open_width(before): return len(table_inputs(find_words(is_card, before)))
def open_rows(before):
    rows = []
    for l in before:
        if not is_row(l): break
        rows.append(l)
    return rows[::-1]
def differs_from_first(letter, rows): return False if not rows else not letter == last_letter(rows[0][1])

# ---------------------------------------------------------------- blif_ast/specs/Faults
def has_blif_fault(kind, before, line):
    ws = line[1]
    if kind == 1: return any(any(is_control(b) for b in w) for w in ws)
    if kind == 2: return is_card(line) and card_of(line) is None
    if kind == 3: return is_out_of_form(card_of(line), ws)
    if kind == 4: return is_row(line) and not is_table_open(before)
    inside = is_row(line) and is_table_open(before)
    if kind == 5: return inside and not is_row_form(open_width(before), ws)
    if kind == 6: return inside and is_row_form(open_width(before), ws) and differs_from_first(last_letter(ws), open_rows(before))
    if kind == 7: return is_too_wide(line)
    if kind == 8: return is_card(line) and not begins(b".model", line) and not is_model_open(before)
    if kind == 9: return begins(b".latch", line) and is_level_form(ws)

# ---------------------------------------------------------------- blif_ast/specs/Reading
def blif_faults(text):
    """All (number, kind) of which `IsBlifFault` holds."""
    all = logical_lines(text)
    out, before = [], []
    for k, line in enumerate(all):
        if k: before = [all[k - 1]] + before
        for kind in range(1, 10):
            if has_blif_fault(kind, before, line): out.append((line[0], kind))
    if not all: out.append((len(lines(text)) + 1, 8))
    return out
def is_first_fault(faults, number, kind):
    return ((number, kind) in faults and all(number <= o for o, k in faults)
            and all(kind <= k for o, k in faults if o == number))

# ---------------------------------------------------------------- blif_ast/specs/Models
def take_while(p, xs):
    out = []
    for x in xs:
        if not p(x): break
        out.append(x)
    return out
def row_letter(b): return 48 if b == 48 else (49 if b == 49 else 45)
def row_letters(ws): return bytes(row_letter(b) for b in ws[0]) if len(ws) >= 2 else b""
def rows_are_on(rows): return True if not rows else last_letter(rows[0][1]) == 49
def table_of(line, rows):
    return Table(tuple(table_inputs(line[1])), last_word(line[1]), rows_are_on(rows), tuple(row_letters(r[1]) for r in rows), line[0])
def tables_of(all):
    return tuple(table_of(l, take_while(is_row, all[k + 1:])) for k, l in enumerate(all) if begins(b".names", l))
def control_of(type, word): return ("re" if type == b"re" else "fe", None if word == b"NIL" else word)
def init_of(w): return byte_at(w, 0) - 48
def latch_of(number, ws):
    if len(ws) == 3: return Latch(ws[1], ws[2], None, 3, number)
    if len(ws) == 4: return Latch(ws[1], ws[2], None, init_of(ws[3]), number)
    if len(ws) == 5: return Latch(ws[1], ws[2], control_of(ws[3], ws[4]), 3, number)
    if len(ws) == 6: return Latch(ws[1], ws[2], control_of(ws[3], ws[4]), init_of(ws[5]), number)
    return None
def latches_of(all):
    out = [latch_of(l[0], l[1]) for l in all if begins(b".latch", l)]
    return tuple(x for x in out if x is not None)
def instance_of(line):
    ws = line[1]
    return Instance(ws[1] if len(ws) > 1 else b"", tuple((formal_of(w), actual_of(w)) for w in ws[2:]), line[0])
def instances_of(all): return tuple(instance_of(l) for l in all if begins(b".subckt", l))
def names_on(card, all): return tuple(w for l in all if begins(card, l) for w in l[1][1:])
def blif_model(line, all):
    return Model(line[1][1] if len(line[1]) > 1 else b"", names_on(b".inputs", all), names_on(b".outputs", all), tables_of(all),
                 latches_of(all), instances_of(all), line[0])
def is_inside(line): return not (begins(b".model", line) or begins(b".end", line))
def models_of(all):
    return tuple(blif_model(l, take_while(is_inside, all[k + 1:])) for k, l in enumerate(all) if begins(b".model", l))
def is_file_of(text, file): return not blif_faults(text) and file == models_of(logical_lines(text))

# ---------------------------------------------------------------- blif_ast/specs/Good
def is_good_name(n): return n != b"" and all(32 < b and b != 127 and b != 35 for b in n)
def is_good_table(t):
    return (all(map(is_good_name, t.inputs)) and is_good_name(t.output) and len(t.inputs) <= MOST_INPUTS[0]
            and all(len(r) == len(t.inputs) for r in t.rows) and (t.rows != () or t.on is True))
def is_good_latch(l):
    c = l.control
    return (is_good_name(l.input) and is_good_name(l.output)
            and (c is None or c[1] is None or (is_good_name(c[1]) and c[1] != b"NIL")) and l.init <= 3)
def is_good_binding(b): return is_good_name(b[0]) and all(x != 61 for x in b[0]) and is_good_name(b[1])
def is_good_instance(i): return is_good_name(i.unit) and all(map(is_good_binding, i.bindings))
def is_distinct(xs):
    return all(xs[j] != xs[k] for j in range(len(xs)) for k in range(j + 1, len(xs)))
def is_good_model(m):
    part_lines = [t.line for t in m.tables] + [l.line for l in m.latches] + [i.line for i in m.instances]
    return (is_good_name(m.name) and all(map(is_good_name, m.inputs)) and all(map(is_good_name, m.outputs))
            and all(map(is_good_table, m.tables)) and all(map(is_good_latch, m.latches)) and all(map(is_good_instance, m.instances))
            and is_distinct(part_lines))
def is_good_file(f): return f != () and all(map(is_good_model, f))

# ---------------------------------------------------------------- blif_ast/specs/Printed
def printed_line(ws): return b" ".join(ws) + (b" " if is_joined(last_word(ws)) else b"") + b"\n"
def letters_words(row): return [bytes(row)] if len(row) > 0 else []
def row_words(on, row): return letters_words(row) + [b"1" if on else b"0"]
def table_lines(t): return [[b".names"] + list(t.inputs) + [t.output]] + [row_words(t.on, r) for r in t.rows]
def control_words(c): return [] if c is None else [b"re" if c[0] == "re" else b"fe", b"NIL" if c[1] is None else c[1]]
def latch_words(l): return [b".latch", l.input, l.output] + control_words(l.control) + [bytes([48 + l.init])]
def instance_words(i): return [b".subckt", i.unit] + [f + b"=" + a for f, a in i.bindings]
def ports_card(card, names): return [[card] + list(names)] if names else []
def model_lines(m):
    return ([[b".model", m.name]] + ports_card(b".inputs", m.inputs) + ports_card(b".outputs", m.outputs)
            + [l for t in m.tables for l in table_lines(t)] + [latch_words(l) for l in m.latches]
            + [instance_words(i) for i in m.instances] + [[b".end"]])
def printed(f): return b"".join(printed_line(l) for m in f for l in model_lines(m))
def unlined(f):
    return tuple(m._replace(line=0, tables=tuple(t._replace(line=0) for t in m.tables), latches=tuple(l._replace(line=0) for l in m.latches),
                            instances=tuple(i._replace(line=0) for i in m.instances)) for m in f)

# ---------------------------------------------------------------- blif_ast/specs/TableValue
def get(xs, k): return xs[k] if 0 <= k < len(xs) else None
def matches(row, inputs):
    return (all(get(inputs, k) is True for k in range(len(row)) if row[k] == 49)
            and all(get(inputs, k) is False for k in range(len(row)) if row[k] == 48))
def is_one_at(on, rows, inputs):
    some = any(matches(r, inputs) for r in rows)
    return some if on else not some

# ---------------------------------------------------------------- model_calls/specs/Signals; a path has the nearest instance first
def bound_actual(i, formal):
    for f, a in i.bindings:
        if f == formal: return a
    return None
def signal_of(path, name):
    while path:
        actual = bound_actual(path[0], name)
        if actual is None: return (path, name)
        path, name = path[1:], actual
    return ((), name)

# ---------------------------------------------------------------- model_calls/specs/{Ordered,Occurrences,Expanded}
def in_order(number, xs):
    out = []
    for e in reversed(xs):
        k = 0
        while k < len(out) and number(out[k]) < number(e): k += 1
        out.insert(k, e)
    return out
NO_MODEL = Model(b"", (), (), (), (), (), 0)
def main_model(f): return f[0] if f else NO_MODEL
def models_called(models, name):
    for m in models:
        if m.name == name: return [m]
    return []
def names_of(m):
    out = list(m.inputs) + list(m.outputs)
    for t in m.tables: out += list(t.inputs) + [t.output]
    for l in m.latches:
        out += [l.input, l.output]
        if l.control is not None and l.control[1] is not None: out.append(l.control[1])
    for i in m.instances: out += [a for f, a in i.bindings]
    return out
def occurrences_from(models, depth, path, m):
    if depth == 0: return []
    out = [(path, m)]
    for i in m.instances:
        for n in models_called(models, i.unit): out += occurrences_from(models, depth - 1, (i,) + path, n)
    return out
def occurrences(f): return occurrences_from(f, len(f), (), main_model(f))
def ordered_cards(m): return in_order(lambda c: c.line, list(m.tables) + list(m.latches) + list(m.instances))
def expanded_from(models, depth, path, m):
    if depth == 0: return []
    out = []
    for c in ordered_cards(m):
        if isinstance(c, Instance):
            for n in models_called(models, c.unit): out += expanded_from(models, depth - 1, (c,) + path, n)
        else: out.append((path, c))
    return out
def expanded(f): return expanded_from(f, len(f), (), main_model(f))
def tables(ex): return [p for p in ex if isinstance(p[1], Table)]
def latches(ex): return [p for p in ex if isinstance(p[1], Latch)]

# ---------------------------------------------------------------- model_calls/specs/Ends; an end is (signal, line, name)
def end_at(path, line, name): return (signal_of(path, name), line, name)
def read_ends(p):
    path, c = p
    return [end_at(path, c.line, n) for n in c.inputs] if isinstance(c, Table) else [end_at(path, c.line, c.input)]
def driven_end(p): return end_at(p[0], p[1].line, p[1].output)
def main_inputs(f): return [end_at((), main_model(f).line, n) for n in main_model(f).inputs]
def main_outputs(f): return [end_at((), main_model(f).line, n) for n in main_model(f).outputs]
def drivers(f, ex): return main_inputs(f) + [driven_end(p) for p in ex]
def readers(f, ex): return [e for p in ex for e in read_ends(p)] + main_outputs(f)
def clockings(ex):
    """(edge, end of the signal or None, line, output)"""
    return [(l.control[0], None if l.control[1] is None else end_at(path, l.line, l.control[1]), l.line, l.output)
            for path, l in latches(ex) if l.control is not None]
def controls(ex): return [c[1] for c in clockings(ex) if c[1] is not None]
def inputs_of(t): return [signal_of(t[0], n) for n in t[1].inputs]
def output_of(t): return signal_of(t[0], t[1].output)

# ---------------------------------------------------------------- model_calls/specs/Counts
def counts(f, limits):
    occ = occurrences(f)
    return [("signals", sum(len(set(names_of(m))) for p, m in occ), limits["signals"]),
            ("instances", len(occ), limits["instances"]),
            ("letters", sum((len(t.inputs) + 1) * (len(t.rows) + 1) for p, m in occ for t in m.tables), limits["letters"]),
            ("sinks", len(main_model(f).outputs) + sum(len(m.latches) for p, m in occ), limits["sinks"])]

# ---------------------------------------------------------------- model_calls/specs/{First,ModelFaults,SignalFaults,Refusals}
def is_first(holds, all):
    """The index of the element of which `IsFirst holds all` is true, or None."""
    for k in range(len(all)):
        if holds(all[:k], all[k]): return k
    return None
def is_twice_in(names, name): return 1 < sum(1 for n in names if n == name)
def ports(f): return [(m.line, l, n) for m in f for l in (m.inputs, m.outputs) for n in l]
def uses(f): return [(m, i) for m in f for i in m.instances]
def formals_of(i): return [b[0] for b in i.bindings]
def formals(f):
    out = []
    for m, i in uses(f):
        for unit in models_called(f, i.unit):
            out += [("bound", i, unit, n) for n in formals_of(i)] + [("input", i, unit, n) for n in unit.inputs]
    return out
def is_wrong_formal(x):
    sort, i, unit, name = x
    if sort == "bound": return (name not in list(unit.inputs) + list(unit.outputs)) or is_twice_in(formals_of(i), name)
    return name not in formals_of(i)
def reaches(steps, a, b):
    """One or more steps lead from a to b; steps gives the list of next things."""
    seen, todo = set(), list(steps(a))
    while todo:
        x = todo.pop()
        if x == b: return True
        if x not in seen:
            seen.add(x)
            todo += steps(x)
    return False

def reported(holds, all, line_of, name_of):
    k = is_first(holds, all)
    return None if k is None else (line_of(all[k]), name_of(all[k]))

ORDER = {10: 1, 11: 2, 12: 3, 13: 4, 14: 5, 15: 7, 16: 8, 17: 9, 18: 10, 19: 11}
def refusal_order(r): return ORDER[r[1]] if r[0] == "At" else 6

def refusals(f, limits):
    """All refusals of which `HasRefusal f` is true: at most one for each kind, as each `IsReported` has at most one line and name."""
    out = []
    def at(kind, got):
        if got is not None: out.append(("At", kind, got[0], got[1]))
    at(10, reported(lambda b, m: m.name in [x.name for x in b], f, lambda m: m.line, lambda m: m.name))
    at(11, reported(lambda b, p: is_twice_in(p[1], p[2]), ports(f), lambda p: p[0], lambda p: p[2]))
    us = uses(f)
    at(12, reported(lambda b, u: u[1].unit not in [m.name for m in f], us, lambda u: u[1].line, lambda u: u[1].unit))
    at(13, reported(lambda b, x: is_wrong_formal(x), formals(f), lambda x: x[1].line, lambda x: x[3]))
    step = lambda name: [i.unit for m, i in us if m.name == name]
    at(14, reported(lambda b, u: u[1].unit == u[0].name or reaches(step, u[1].unit, u[0].name), us, lambda u: u[1].line, lambda u: u[1].unit))
    cs = counts(f, limits)
    k = is_first(lambda b, c: c[2] < c[1], cs)
    if k is not None: out.append(("TooMany", cs[k][0], min(cs[k][1], 2 ** 64 - 1)))
    ex = expanded(f)
    mi = [e[0] for e in main_inputs(f)]
    at(15, reported(lambda b, e: e[0] in mi or e[0] in [o[0] for o in b], [driven_end(p) for p in ex], lambda e: e[1], lambda e: e[2]))
    ds = [e[0] for e in drivers(f, ex)]
    at(16, reported(lambda b, e: e[0] not in ds, readers(f, ex), lambda e: e[1], lambda e: e[2]))
    ts = [(output_of(t), inputs_of(t), t) for t in tables(ex)]
    fed = lambda s: [x for t in ts if t[0] == s for x in t[1]]
    at(17, reported(lambda b, t: reaches(fed, t[0], t[0]), ts, lambda t: t[2][1].line, lambda t: t[2][1].output))
    other = lambda b, c: any(x[0] != c[0] or (x[1] is not None and c[1] is not None and x[1][0] != c[1][0]) for x in b)
    at(18, reported(other, clockings(ex), lambda c: c[2], lambda c: c[3]))
    ctl = controls(ex)
    if ctl:
        ends = [e for p in ex for e in read_ends(p) + [driven_end(p)]] + main_outputs(f)
        at(19, reported(lambda b, e: e[0] == ctl[0][0], ends, lambda e: e[1], lambda e: ctl[0][2]))
    return out
def is_refusal(all, r):
    """`IsRefusal`, by all refusals that the file has."""
    return r in all and all_of(refusal_order(r) <= refusal_order(o) for o in all)
def all_of(xs):
    for x in xs:
        if not x: return False
    return True

# ---------------------------------------------------------------- model_calls/specs/Numbering, net_flatten/specs/Flattening
def is_levelling(f, ex, level):
    return (all(level(e[0]) == 0 for e in main_inputs(f)) and all(level(output_of(l)) == 0 for l in latches(ex))
            and all(level(output_of(t)) == 1 + max([0] + [level(s) for s in inputs_of(t)]) for t in tables(ex)))
def by_level(level, ex): return [t for _, t in in_order(lambda t: t[0], [(level(output_of(t)), t) for t in tables(ex)])]
def is_control_name(control, name): return control is not None and control[0][0] == () and control[0][1] == name
def pins(f, ex):
    c = controls(ex)
    return [n for n in main_model(f).inputs if not is_control_name(c[0] if c else None, n)]
def signals_by_number(f, ex, ordered):
    return [signal_of((), n) for n in pins(f, ex)] + [output_of(l) for l in latches(ex)] + [output_of(t) for t in ordered]
def is_prefixed_number(prefix, name):
    if name[:len(prefix)] != prefix: return False
    digits = name[len(prefix):]
    return digits != b"" and all(48 <= b <= 57 for b in digits)
def is_free_prefix(names, width): return 1 <= width and all(not is_prefixed_number(b"w" * width, n) for n in names)
def is_least_prefix(names, width):
    return is_free_prefix(names, width) and not any(is_free_prefix(names, o) for o in range(width))
def name_by_number(prefix, number, s): return s[1] if s[0] == () else prefix + b"%d" % number
def is_network_of(f, all, n, level, width):
    """`IsNetworkOf`, with the level function and the width that it asks for given as witnesses."""
    if all: return False
    ex = expanded(f)
    if not is_levelling(f, ex, level) or not is_least_prefix(names_of(main_model(f)), width): return False
    ordered = by_level(level, ex)
    sig = signals_by_number(f, ex, ordered)
    return (n.name == main_model(f).name
            and list(n.names) == [name_by_number(b"w" * width, k, s) for k, s in enumerate(sig)]
            and n.inputs == len(pins(f, ex))
            and [get(sig, k) for k in n.outputs] == [signal_of((), o) for o in main_model(f).outputs]
            and [(get(sig, l.input), l.init) for l in n.latches] == [(signal_of(p, l.input), l.init == 1) for p, l in latches(ex)]
            and [([get(sig, k) for k in t.inputs], t.on, t.rows) for t in n.tables]
            == [(inputs_of(t), t[1].on, t[1].rows) for t in ordered])

# ---------------------------------------------------------------- network/specs/Networks (what a network keeps)
def is_network(n, limits):
    first = n.inputs + len(n.latches)
    def net_table(below, t):
        return (all(s < below for s in t.inputs) and len(t.inputs) <= MOST_INPUTS[0] and all(len(r) == len(t.inputs) for r in t.rows)
                and (t.rows != () or t.on is True))
    return (is_good_name(n.name) and all(map(is_good_name, n.names)) and is_distinct(n.names) and len(n.names) == first + len(n.tables)
            and all(net_table(first + k, t) for k, t in enumerate(n.tables)) and all(l.input < len(n.names) for l in n.latches)
            and all(o < len(n.names) for o in n.outputs) and is_distinct(n.outputs) and len(n.names) <= limits["signals"]
            and sum((len(t.inputs) + 1) * (len(t.rows) + 1) for t in n.tables) <= limits["letters"]
            and len(n.outputs) + len(n.latches) <= limits["sinks"])

# ---------------------------------------------------------------- net_flatten/specs/OneModel
def file_of(n):
    at = lambda k: n.names[k] if k < len(n.names) else b""
    first = n.inputs + len(n.latches)
    ts = tuple(Table(tuple(at(s) for s in t.inputs), at(first + k), t.on, t.rows, 2 + k) for k, t in enumerate(n.tables))
    ls = tuple(Latch(at(l.input), at(n.inputs + k), None, 1 if l.init else 0, 2 + len(n.tables) + k) for k, l in enumerate(n.latches))
    return (Model(n.name, tuple(n.names[:n.inputs]), tuple(at(o) for o in n.outputs), ts, ls, (), 1),)

# ---------------------------------------------------------------- net_run/specs/Runs
def value_at(values, k): return values[k] if k < len(values) else False
def is_valuation(n, pins, state, values):
    first = n.inputs + len(n.latches)
    return (len(values) == len(n.names) and list(values[:n.inputs]) == list(pins)
            and list(values[n.inputs:][:len(n.latches)]) == list(state)
            and all(value_at(values, first + k) == is_one_at(t.on, t.rows, [value_at(values, s) for s in t.inputs])
                    for k, t in enumerate(n.tables)))
def valuations(n, pins, state):
    """All value lists of the right length of which `IsValuation` is true: those with other pins or state aren't."""
    rest = len(n.names) - len(pins) - len(state)
    out = []
    for bits in range(1 << rest):
        v = list(pins) + list(state) + [bool(bits >> k & 1) for k in range(rest)]
        if is_valuation(n, pins, state, v): out.append(v)
    return out
def network_runs(n, stream):
    """All lists of cycles (outputs, next) of which `IsNetworkRun n stream` is true."""
    runs = [([], [l.init for l in n.latches])]
    for p in stream:
        more = []
        for cycles, state in runs:
            for v in valuations(n, p, state):
                nxt = [value_at(v, l.input) for l in n.latches]
                more.append((cycles + [([value_at(v, o) for o in n.outputs], nxt)], nxt))
        runs = more
    return [r[0] for r in runs]

# ---------------------------------------------------------------- stim_text/specs, command_answers/specs/Networks, domsyn/specs/Refusals
def lettered_lines(text):
    all = [bytes(b for b in without_comment(l) if not is_blank(b)) for l in lines(text)]
    return [(k + 1, l) for k, l in enumerate(all) if l != b""]
def has_stim_fault(width, kind, letters):
    ok = all(b in (48, 49) or (width == 0 and b == 45) for b in letters)
    right = letters == b"-" if width == 0 else len(letters) == width
    return (not ok) if kind == "BadLetter" else (ok and not right)
def stim_faults(width, text):
    """All (line, kind) of which `IsStimFaultAt` is true."""
    all = lettered_lines(text)
    out = []
    for k, (number, letters) in enumerate(all):
        for kind in ("BadLetter", "BadLength"):
            if has_stim_fault(width, kind, letters) and not any(has_stim_fault(width, o, l) for o in ("BadLetter", "BadLength") for _, l in all[:k]):
                out.append((number, kind))
    return out
def pin_letters(p): return bytes(49 if b else 48 for b in p) or b"-"
def is_stimulus_of(width, text, cycles):
    return [l for _, l in lettered_lines(text)] == [pin_letters(p) for p in cycles] and all(len(p) == width for p in cycles)
def cycle_line(number, p, outs): return b"cycle %d in " % number + pin_letters(p) + b" out " + pin_letters(outs) + b"\n"
def run_lines(stream, cycles): return b"".join(cycle_line(k, p, c[0]) for k, (p, c) in enumerate(zip(stream, cycles)))
def refusal_line(file, r):
    if r[0] == "Blif": return b"domsyn: %s:%d: blif %d %s\n" % (file, r[1], r[2], KIND_WORDS[r[2]].encode())
    if r[0] == "At": return b"domsyn: %s:%d: blif %d %s %s\n" % (file, r[2], r[1], KIND_WORDS[r[1]].encode(), r[3])
    if r[0] == "TooMany": return b"domsyn: %s: blif 20 TooMany %s %d\n" % (file, r[1].encode(), r[2])
    return b"domsyn: %s:%d: stim %s\n" % (file, r[1], r[2].encode())
