"""compare_yardstick.py SEED COUNT: definitions and rules beside another program (PLAIN below) on texts: `flat` and `run`."""
import random, sys, collections, subprocess, os, tempfile
import definitions as d, rules as p, make_files, make_texts
from data import *

PLAIN = os.environ["PLAIN"]
DIR = tempfile.mkdtemp(prefix="hier")

def ask(*ws):
    got = subprocess.run([PLAIN, *ws], cwd=DIR, capture_output=True)
    return got.returncode, got.stdout, got.stderr

def by_definitions(text, stim):
    """Status, out and err of `flat t` and of `run t s` by the definitions, with the rules' network as the witness."""
    faults = d.blif_faults(text)
    if faults:
        line = min(faults)[0]
        first = [(n, k) for n, k in faults if d.is_first_fault(faults, n, k)]
        r = ("Blif",) + first[0]
        return [(1, b"", d.refusal_line(b"t", r))] * 2
    f = d.models_of(d.logical_lines(text))
    all = d.refusals(f, LIMITS)
    if all:
        r = [x for x in all if d.is_refusal(all, x)][0]
        return [(1, b"", d.refusal_line(b"t", r))] * 2
    _, net, level, width, h, control = p.flatten(f, LIMITS)
    flat = (0, d.printed(d.file_of(net)), b"")
    bad = d.stim_faults(net.inputs, stim)
    if bad: return [flat, (1, b"", d.refusal_line(b"s", ("Stim",) + bad[0]))]
    cycles = [[] if l == b"-" else [b == 49 for b in l] for _, l in d.lettered_lines(stim)]
    assert d.is_stimulus_of(net.inputs, stim, cycles)
    if len(net.tables) > 8 or len(net.names) > 20: return [flat, None]
    found = d.network_runs(net, cycles)
    assert len(found) == 1
    return [flat, (0, d.run_lines(cycles, found[0]), b"")]

def by_rules(text, stim):
    got = p.read(text)
    if got[0] == "bad": return [(1, b"", p.told(b"t", got))] * 2
    flat = p.flatten(got[1], LIMITS)
    if flat[0] == "no": return [(1, b"", p.told(b"t", flat[1]))] * 2
    net = flat[1]
    show = (0, p.show(d.file_of(net)), b"")
    cs = p.stimulus(stim, net.inputs)
    if cs[0] == "bad": return [show, (1, b"", p.told(b"s", cs))]
    return [show, (0, p.cycle_text(cs[1], p.run(flat, cs[1])), b"")]

def stimulus(r, text):
    got = p.read(text)
    width = 1
    if got[0] == "ok":
        flat = p.flatten(got[1], LIMITS)
        if flat[0] == "yes": width = flat[1].inputs
    out = b""
    for _ in range(r.choice([0, 1, 2, 3, 4])):
        w = width if r.random() < 0.97 else width + 1
        l = bytes(r.choice(b"01") for _ in range(w)) or b"-"
        if r.random() < 0.1: l = b" ".join(bytes([b]) for b in l)
        if r.random() < 0.03: l += r.choice([b"x", b"-", b"\x00", b"\r", b"\\"])
        out += l + r.choice([b"\n"] * 8 + [b"\r\n", b" # c\n", b"\n\n", b"#\\\n", b"\t\n", b""])
    return out

if __name__ == "__main__":
    seed, count = int(sys.argv[1]), int(sys.argv[2])
    r = random.Random(seed)
    stat = collections.Counter()
    bad = 0
    for k in range(count):
        text = make_files.text(r, make_files.file(r)) if r.random() < 0.7 else make_texts.text(r)
        stim = stimulus(r, text)
        with open(DIR + "/t", "wb") as o: o.write(text)
        with open(DIR + "/s", "wb") as o: o.write(stim)
        mine, theirs = by_definitions(text, stim), by_rules(text, stim)
        plain = [ask("flat", "t"), ask("run", "t", "s")]
        for word, a, b, c in zip(("flat", "run"), mine, theirs, plain):
            stat["%s %d" % (word, c[0])] += 1
            if c[0] == 1: stat[c[2].split(b": ")[2].split()[1 if b" stim " in c[2] else 2].decode("latin1")] += 1
            if (a is not None and a != b) or b != c:
                bad += 1
                print("DIFFERS", word, repr(text), repr(stim), "\n definitions", a, "\n rules", b, "\n plain", c, flush=True)
        if bad > 5: break
    print("texts", count, "differ", bad, dict(sorted(stat.items())), flush=True)
