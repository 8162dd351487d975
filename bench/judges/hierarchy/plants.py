"""plants.py: changes planted in the copy of the definitions, one at a time; the comparison must tell each."""
import os, re, shutil, subprocess, sys, tempfile

PLANTS = [
    ("texts", 'ws[0] == b"never"', None),
    ("texts", "def without_return(line): return line[:-1] if", "def without_return(line): return line.rstrip(b'\\r') if"),
    ("texts", "all = [without_comment(x) for x in lines(text)]", "all = [x if x.endswith(b'\\\\') else without_comment(x) for x in lines(text)]"),
    ("texts", "return [(number, line + nxt[0][1])] + nxt[1:]", "return [(nxt[0][0], line + nxt[0][1])] + nxt[1:]"),
    ("texts", "if kind == 8: return is_card(line) and not", "if kind == 8: return not"),
    ("texts", "def open_width(before): return len(table_inputs(find_words(is_card, before)))", "def open_width(before): return len(find_words(is_card, before)) - 1"),
    ("texts", "differs_from_first(last_letter(ws), open_rows(before))", "differs_from_first(last_letter(ws), open_rows(before)[::-1])"),
    ("texts", "if n == 5: return is_type(ws[3])", "if n == 5: return is_type(ws[3]) or is_init(ws[4])"),
    ("texts", "begins(b\".model\", l) or begins(b\".end\", l), before)) == b\".model\"", "begins(b\".model\", l), before)) == b\".model\""),
    ("files", "    for f, a in i.bindings:\n        if f == formal: return a\n    return None", "    for f, a in i.bindings:\n        if a == formal: return a\n    return None"),
    ("files", "        if actual is None: return (path, name)\n        path, name = path[1:], actual", "        if actual is None: return (path, name)\n        return (path[1:], actual)"),
    ("files", "while k < len(out) and number(out[k]) < number(e): k += 1", "while k < len(out) and number(out[k]) <= number(e): k += 1"),
    ("files", "def ordered_cards(m): return in_order(lambda c: c.line, ", "def ordered_cards(m): return (lambda f, x: x)(0, "),
    ("files", "for l in (m.inputs, m.outputs) for n in l]", "for l in (m.outputs, m.inputs) for n in l]"),
    ("files", '[("bound", i, unit, n) for n in formals_of(i)] + [("input", i, unit, n) for n in unit.inputs]', '[("input", i, unit, n) for n in unit.inputs] + [("bound", i, unit, n) for n in formals_of(i)]'),
    ("files", "u[1].unit == u[0].name or reaches(step, u[1].unit, u[0].name)", "reaches(step, u[0].name, u[0].name)"),
    ("files", 'at(16, reported(lambda b, e: e[0] not in ds, readers(f, ex),', 'at(16, reported(lambda b, e: e[0] not in ds, main_outputs(f) + readers(f, ex),'),
    ("files", "reaches(fed, t[0], t[0])", "any(x == t[0] or reaches(fed, x, x) for x in t[1])"),
    ("files", "x[0] != c[0] or (x[1] is not None and c[1] is not None and x[1][0] != c[1][0])", "x[0] != c[0] or (x[1] is not None and c[1] is not None and x[1][2] != c[1][2])"),
    ("files", "lambda e: e[1], lambda e: ctl[0][2]))", "lambda e: e[1], lambda e: e[2]))"),
    ("files", "ends = [e for p in ex for e in read_ends(p) + [driven_end(p)]]", "ends = [e for p in ex for e in read_ends(p)]"),
    ("files", '("sinks", len(main_model(f).outputs) + sum', '("sinks", sum'),
    ("files", "sum(len(set(names_of(m))) for p, m in occ)", "sum(len(names_of(m)) for p, m in occ)"),
    ("files", "for i in m.instances: out += [a for f, a in i.bindings]\n    return out", "return out"),
    ("files", 'digits != b"" and all(48 <= b <= 57', "all(48 <= b <= 57"),
    ("files", "l.init == 1) for p, l in latches(ex)]", "l.init in (1, 2)) for p, l in latches(ex)]"),
    ("files", "1 + max([0] + [level(s) for s in inputs_of(t)])", "1 + max([-1] + [level(s) for s in inputs_of(t)])"),
    ("files", "return some if on else not some", "return some"),
    ("files", "            nxt = [value_at(v, l.input) for l in n.latches]\n" , None),
    ("files", "control[0][0] == () and control[0][1] == name", "control[2] == name"),
    ("files", 'if l.control is not None and l.control[1] is not None: out.append(l.control[1])', "pass"),
    ("files", "max(0, len(w) - 1)", None),
]
here = os.path.dirname(os.path.abspath(__file__))
source = open(here + "/definitions.py").read()
found = asked = 0
for script, old, new in sorted(PLANTS, key=lambda x: x[0]):
    if new is None: continue
    assert source.count(old) == 1, (source.count(old), old)
    asked += 1
    where = tempfile.mkdtemp(prefix="plant")
    for name in os.listdir(here):
        if name.endswith(".py"): shutil.copy(here + "/" + name, where)
    open(where + "/definitions.py", "w").write(source.replace(old, new))
    text = open(where + "/compare_%s.py" % script).read()
    open(where + "/compare_%s.py" % script, "w").write(text.replace("if bad > 10: break", "if bad: break").replace("if bad > 5: break", "if bad: break"))
    got = subprocess.run([sys.executable, "compare_%s.py" % script, "77", "800"], cwd=where, capture_output=True, text=True)
    told = "DIFFERS" in got.stdout or got.returncode != 0
    found += told
    print("told" if told else "NOT TOLD", "|", old[:70].replace("\n", " "), "->", new[:60].replace("\n", " "), "|", got.stdout[:110].replace("\n", " ") if told and got.stdout else got.stderr[-100:], flush=True)
    shutil.rmtree(where)
print("plants", asked, "told", found)
