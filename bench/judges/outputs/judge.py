"""judge.py PROGRAM FIRST_SEED COUNT [--which flat,sim,versions,report] [--methods plain,deck2,exact,skew,compound] [--plant] [--quiet]
    [--seconds N] [--add FILE]

Judges four statements about `domsyn` on small cases, one for each seed, by code of its own (blif.py: reader of BLIF and interpreter of the
hierarchy; deck.py: reader of decks with calls expanded, counts; draw.py: the cases):
  flat      what `flat` puts out is accepted and its network does what the hierarchy does
  sim       `sim` of a deck that `synth` wrote has the network's outputs, never 6, 1 only for a probe that names no net
  versions  the decks of version 1 and 2 are one circuit
  report    the figures are those of the deck
A case hangs on its seed (and on --methods) alone, so `judge.py PROGRAM SEED 1` shows it again. --seconds ends early; --add adds the tallies
to those of a file, so that several runs are counted together. --plant changes what the program said in one place at a time and counts
which changes are noticed. Files of the first 20 cases that differ are kept in fail/SEED, with the words of each run in WRONG. Status 1
where something differs."""
import functools, json, os, sys, signal, shutil, tempfile, time, collections
from random import Random

sys.path.insert(0, os.path.dirname(os.path.abspath(__file__)))
import blif, deck, draw

HERE = os.path.dirname(os.path.abspath(__file__))
LIMIT = 20  # seconds for one run of the program


class TooSlow(Exception):
    pass


def rang(*_):
    raise TooSlow()


class Runner:
    """Runs of the program in a folder of their own; standard output goes to a file by name."""

    def __init__(self, program, folder):
        self.program, self.folder = program, folder
        self.env = dict(os.environ)
        self.env.setdefault("DOMSYN_LATER", "1")
        self.runs, self.spent, self.log = 0, 0.0, []

    def run(self, words, out):
        """(status, standard output, standard error); a signal is its number below 0."""
        t = time.perf_counter()
        write = os.O_WRONLY | os.O_CREAT | os.O_TRUNC
        pid = os.posix_spawn(self.program, [self.program] + words, self.env, file_actions=[
            (os.POSIX_SPAWN_OPEN, 0, "/dev/null", os.O_RDONLY, 0), (os.POSIX_SPAWN_OPEN, 1, out, write, 0o644), (os.POSIX_SPAWN_OPEN, 2, "err", write, 0o644)])
        signal.setitimer(signal.ITIMER_REAL, LIMIT)
        try:
            status = os.waitstatus_to_exitcode(os.waitpid(pid, 0)[1])
        except TooSlow:
            os.kill(pid, signal.SIGKILL)
            os.waitpid(pid, 0)
            status = -100
        finally:
            signal.setitimer(signal.ITIMER_REAL, 0)
        self.runs += 1
        self.spent += time.perf_counter() - t
        self.log.append(" ".join(words) + " > " + out + "  # %d" % status)
        return status, slurp(out), slurp("err")


def slurp(name):
    with open(name, "rb") as f:
        return f.read()


def spill(name, data):
    with open(name, "wb") as f:
        f.write(data)


# the four judgements: each gives a list of what is wrong


def judge_flat(world, said, seed):
    status, out, err = said
    if status != 0 or err:
        return ["flat: status %d, error %r" % (status, err)]
    try:
        models = blif.read(out)
        other = blif.World(models)
    except blif.Refuse as e:
        return ["flat: its text is refused: %r" % e.text(b"flat")]
    wrong = []
    if len(models) != 1 or any(isinstance(i, blif.Call) for i in models[0].items):
        wrong.append("flat: not one model without instances")
    if any(isinstance(i, blif.Latch) and (i.edge or i.init > 1) for i in models[0].items):
        wrong.append("flat: a latch with an edge, or whose start isn't 0 or 1")
    if models[0].name != world.models[0].name:
        wrong.append("flat: name of the model")
    if other.inputs != world.inputs or models[0].inputs != world.inputs:
        wrong.append("flat: inputs")
    if other.outputs != world.outputs:
        wrong.append("flat: outputs")
    if other.inits != world.inits:
        wrong.append("flat: start values")
    if not wrong:
        why = blif.compare(world, other, Random(seed))
        if why:
            wrong.append("flat: " + why)
    return wrong


def judge_sim(world, circuit, facts, stream, said):
    status, out, err = said
    nets = set(circuit.nets)
    missing = [n for n, e in facts["probes"] if n not in nets]
    if missing:
        if status != 1 or out or err != b"domsyn: no net " + missing[0] + b"\n":
            return ["sim: the probe %r names no net, and status %d, error %r" % (missing[0], status, err)]
        return []
    if status != 0 or err:
        return ["sim: status %d, error %r" % (status, err)]
    names, clocks = circuit.ports, 0
    while b"ck%d" % (clocks + 1) in names:
        clocks += 1
    ports = [b"vdd", b"vss"] + [b"ck%d" % (k + 1) for k in range(clocks)] + [b"lm", b"lmb", b"ls", b"lsb", b"rs", b"rsb"]
    ports += [b"i_" + deck.escape(n) for n in world.inputs] + [b"o_" + deck.escape(n) for n in world.outputs]
    if names != ports:
        return ["sim: the ports of the deck are %r" % names]
    if not out.endswith(b"\n"):
        return ["sim: the trace doesn't end with a line"]
    wanted, now, base, told, before = world.run(stream), -1, 0, 0, -1
    values = {n: b"X" for n in circuit.nets if n not in circuit.ports or n[:2] == b"o_"}
    lines = out[:-1].split(b"\n")
    for line in lines:
        w = line.split(b" ")
        if w[0] == b"event":
            if len(w) != 5 or not w[1].isdigit() or w[3] not in (b"0", b"1", b"X") or w[4] not in (b"0", b"1", b"X") or w[3] == w[4] or w[2] not in values:
                return ["sim: line %r" % line]
            step, net, old, new = int(w[1]), w[2], w[3], w[4]
            asked = any(n == net and (not e or new == {b"+": b"1", b"-": b"0"}[e]) for n, e in facts["probes"])
            if not (facts["events"] or asked):
                return ["sim: an event that nothing asks for: %r" % line]
            if step <= before or step < base or facts["events"] and step != before + 1:
                return ["sim: step of %r" % line]
            if facts["events"] and values[net] != old:
                return ["sim: old value of %r" % line]
            before, told = step, told + 1
            values[net] = new
            continue
        if now == -1:
            if len(w) != 3 or w[:2] != [b"power", b"events"] or not w[2].isdigit():
                return ["sim: line %r" % line]
        else:
            if now >= len(stream):
                return ["sim: a line more: %r" % line]
            bits = lambda v: "".join("01"[x] for x in v) or "-"
            mine = "cycle %d in %s out %s events " % (now, bits(stream[now]), bits(wanted[now][0]))
            if not line.startswith(mine.encode()) or not line[len(mine):].isdigit():
                return ["sim: %r where %r is wanted" % (line, mine)]
        events = int(w[-1])
        if w[-1] != b"%d" % events:
            return ["sim: number in %r" % line]
        if facts["events"] and told != events or told > events or before >= base + events:
            return ["sim: %d events told before %r" % (told, line)]
        if facts["events"]:
            state = world.inits if now == -1 else wanted[now][1]
            found = [values.get(b"q%d" % j) for j in range(len(world.latches))]
            if found != [b"01"[x:x + 1] for x in state]:
                return ["sim: latches %r and not %r before %r" % (found, state, line)]
        now, base, told = now + 1, base + events, 0
        before = base - 1 if facts["events"] else before
    if now != len(stream) or lines[-1].startswith(b"event"):
        return ["sim: the trace ends after %d cycles" % now]
    return []


once = functools.lru_cache(8)(deck.read)


def read_deck(text, which):
    try:
        return once(text), []
    except deck.BadDeck as e:
        return None, ["%s: the deck is refused: %s" % (which, e)]


def judge_versions(one, two):
    """Two texts of `synth`, one circuit."""
    a, wrong = read_deck(one, "versions")
    b, more = read_deck(two, "versions")
    if wrong or more:
        return wrong + more
    for field in ("name", "ports", "phases"):
        if getattr(a, field) != getattr(b, field):
            return ["versions: %s: %r and %r" % (field, getattr(a, field), getattr(b, field))]
    if len(a.devices) != len(b.devices):
        return ["versions: %d and %d devices" % (len(a.devices), len(b.devices))]
    for k, (x, y) in enumerate(zip(a.devices, b.devices)):
        if x != y:
            return ["versions: device %d: %r and %r" % (k, x, y)]
    if a.nets != b.nets:
        return ["versions: nets"]
    if not one.startswith(b"* domsyn deck 1\n") or not two.startswith(b"* domsyn deck 2\n") or a.calls or (b.devices and not b.calls):
        return ["versions: not one text of each version"]
    return []


@functools.lru_cache(4)
def figures(world, circuit):
    """The figures of a deck, by its devices, and what can't be seen there by the tables and the signs of the deck."""
    f = deck.count(circuit)
    nodes, sinks = blif.gates(world)
    signs = [s == b"+" for n, s in circuit.phases]
    wanted = [b"o_" + deck.escape(n) for n in world.outputs] + [b"x%d" % j for j in range(len(world.latches))]
    if [n for n, s in circuit.phases] != wanted:
        raise deck.BadDeck("the phases are those of %r" % [n for n, s in circuit.phases])
    pairs = blif.needed(nodes, sinks, signs)
    if len(pairs) != f["pairs"]:
        raise deck.BadDeck("%d pairs in pull-downs, and %d are needed" % (f["pairs"], len(pairs)))
    if signs != blif.settled(nodes, sinks):
        raise deck.BadDeck("the signs aren't those of the rule")
    for key, mine in (("inputs", len(world.inputs)), ("outputs", len(world.outputs)), ("latches", len(world.latches))):
        if f[key] != mine:
            raise deck.BadDeck("%d %s in the deck, %d in the network" % (f[key], key, mine))
    f["both"] = sum((n, False) in pairs for n, s in pairs if s)
    f["minus"] = sum(not s for s in signs)
    return f


KEYS = ["inputs", "outputs", "latches", "pairs", "both", "minus", "cells", "levels", "cost", "devices"]


def judge_report(world, text, phases, said):
    status, out, err = said
    if status != 0 or err:
        return ["report: status %d, error %r" % (status, err)]
    circuit, wrong = read_deck(text, "report")
    if wrong:
        return wrong
    try:
        f = figures(world, circuit)
    except deck.BadDeck as e:
        return ["report: the deck: %s" % e]
    if circuit.name != deck.escape(world.models[0].name):
        return ["report: name of the deck"]
    mine = [b"model " + world.models[0].name] + [b"%s %d" % (k.encode(), f[k]) for k in KEYS]
    clocks = [k for k in f if k[:2] == "ck"]
    if len(clocks) != phases:
        return ["report: %d clocks, and %d are asked for" % (len(clocks), phases)]
    mine += [b"%s %d" % (k.encode(), f[k]) for k in clocks]
    if out != b"\n".join(mine) + b"\n":
        lines = out.split(b"\n")
        for k, want in enumerate(mine):
            if k >= len(lines) or lines[k] != want:
                return ["report: %r and not %r" % (lines[k] if k < len(lines) else b"", want)]
        return ["report: more lines than those of figures"]
    return []


# changes of what the program said, one place each: a kind gives the changed text, or None where there is no such place


def lines_with(text, test):
    lines = text.split(b"\n")
    return lines, [k for k, x in enumerate(lines) if test(x)]


def change_line(r, text, test, change):
    lines, at = lines_with(text, test)
    if not at:
        return None
    k = r.choice(at)
    new = change(lines[k])
    if new is None or new == lines[k]:
        return None
    lines[k] = new
    return b"\n".join(lines)


def swap_words(r, low, high=None):
    """Exchange two different words of a line."""
    def change(line):
        w = line.split(b" ")
        end = len(w) if high is None else high
        if end - low < 2:
            return None
        i, j = r.sample(range(low, end), 2)
        w[i], w[j] = w[j], w[i]
        return b" ".join(w)
    return change


def set_word(place, value):
    def change(line):
        w = line.split(b" ")
        if len(w) <= place:
            return None
        w[place] = value(w[place])
        return b" ".join(w)
    return change


def drop_line(r, text, test):
    lines, at = lines_with(text, test)
    if not at:
        return None
    del lines[r.choice(at)]
    return b"\n".join(lines)


def is_row(line):
    w = line.split(b" ")
    return line[:1] in b"01-" and line and w[-1] in (b"0", b"1") and len(w) <= 2


def head(word):
    return lambda line: line.startswith(word + b" ")


def flat_plants(r, text):
    def letter(line):
        if b" " not in line:
            return None
        k = r.randrange(line.index(b" "))
        return line[:k] + r.choice([c for c in (b"0", b"1", b"-") if c != line[k:k + 1]]) + line[k + 1:]
    names = [w for x in text.split(b"\n") if x[:1] == b"." for w in x.split(b" ")[1:]]

    def other_input(line):
        w = line.split(b" ")
        if len(w) < 3:
            return None
        w[r.randrange(1, len(w) - 1)] = r.choice(names)
        return b" ".join(w)
    flip = lambda w: b"1" if w == b"0" else b"0"

    def polarity():
        lines, at = lines_with(text, head(b".names"))
        at = [k for k in at if k + 1 < len(lines) and is_row(lines[k + 1])]
        if not at:
            return None
        k = r.choice(at) + 1
        while is_row(lines[k]):
            lines[k] = lines[k][:-1] + flip(lines[k][-1:])
            k += 1
        return b"\n".join(lines)

    def latches():
        lines, at = lines_with(text, head(b".latch"))
        if len(at) < 2:
            return None
        i, j = r.sample(at, 2)
        lines[i], lines[j] = lines[j], lines[i]
        return b"\n".join(lines)
    yield "flat: letter of a row", change_line(r, text, is_row, letter)
    yield "flat: row left out", drop_line(r, text, is_row)
    yield "flat: rows end otherwise", polarity()
    yield "flat: input of a table", change_line(r, text, head(b".names"), other_input)
    yield "flat: order of outputs", change_line(r, text, head(b".outputs"), swap_words(r, 1))
    yield "flat: order of inputs", change_line(r, text, head(b".inputs"), swap_words(r, 1))
    yield "flat: start of a latch", change_line(r, text, head(b".latch"), set_word(3, flip))
    yield "flat: start of a latch 2 or 3", change_line(r, text, head(b".latch"), set_word(3, lambda w: b"3" if w == b"0" else b"2"))
    yield "flat: input of a latch", change_line(r, text, head(b".latch"), set_word(1, lambda w: r.choice(names)))
    yield "flat: order of latches", latches()
    yield "flat: latch left out", drop_line(r, text, head(b".latch"))
    yield "flat: name of the model", change_line(r, text, head(b".model"), set_word(1, lambda w: w + b"x"))


def sim_plants(r, text, facts):
    cycle = lambda x: x.startswith(b"cycle ")
    bit = lambda w: w if w == b"-" else (lambda k: w[:k] + (b"1" if w[k:k + 1] == b"0" else b"0") + w[k + 1:])(r.randrange(len(w)))
    yield "sim: an output's bit", change_line(r, text, cycle, set_word(5, bit))
    yield "sim: an output X", change_line(r, text, cycle, set_word(5, lambda w: w if w == b"-" else b"X" + w[1:]))
    yield "sim: order of outputs", change_line(r, text, cycle, set_word(5, lambda w: w[::-1]))
    yield "sim: a pin's bit", change_line(r, text, cycle, set_word(3, bit))
    yield "sim: cycle left out", drop_line(r, text, cycle)
    yield "sim: number of a cycle", change_line(r, text, cycle, set_word(1, lambda w: b"%d" % (int(w) + 1)))
    more = lambda w: b"%d" % (int(w) + 1) if w.isdigit() else w
    yield "sim: count of events by one" + (", all told" if facts["events"] else ", not told"), change_line(r, text, cycle, set_word(7, more))
    if facts["events"]:
        event = head(b"event")
        yield "sim: event left out", drop_line(r, text, event)
        yield "sim: new value of an event", change_line(r, text, event, set_word(4, lambda w: b"1" if w == b"0" else b"0"))
        yield "sim: step of an event", change_line(r, text, event, set_word(1, more))
        yield "sim: net of an event", change_line(r, text, event, set_word(2, lambda w: r.choice([x.split(b" ")[2] for x in text.split(b"\n") if x.startswith(b"event")])))
    yield "sim: last line left out", (b"\n".join(text.split(b"\n")[:-2]) + b"\n")


def deck_plants(r, text, version):
    nets = [w for x in text.split(b"\n") if x[:1] in (b"m", b"x") for w in x.split(b" ")[1:-1] if w not in (b"nch", b"pch", b"pkeep")]
    device = lambda x: x[:1] == b"m"
    call = lambda x: x[:1] == b"x"
    other = lambda w: r.choice(nets)
    tag = "versions: text %d: " % version
    yield tag + "gate of a device", change_line(r, text, device, set_word(2, other))
    yield tag + "drain and source exchanged", change_line(r, text, device, lambda x: (lambda w: b" ".join([w[0], w[3], w[2], w[1]] + w[4:]))(x.split(b" ")))
    yield tag + "source of a device", change_line(r, text, device, set_word(3, other))
    yield tag + "kind of a device", change_line(r, text, device, set_word(5, lambda w: r.choice([k for k in (b"nch", b"pch", b"pkeep") if k != w])))
    yield tag + "device left out", drop_line(r, text, device)

    def neighbours(test):
        lines, at = lines_with(text, test)
        # two equal devices, but for their names without meaning, may change places
        at = [k for k in at if test(lines[k + 1]) and (lines[k][:1] == b"*" or lines[k].split(b" ")[1:] != lines[k + 1].split(b" ")[1:])]
        if not at:
            return None
        k = r.choice(at)
        lines[k], lines[k + 1] = lines[k + 1], lines[k]
        return b"\n".join(lines)
    yield tag + "order of two devices", neighbours(device)
    yield tag + "order of pins or outputs", change_line(r, text, lambda x: x[:2] == b"+ ", swap_words(r, 1))
    yield tag + "sign of a sink", change_line(r, text, head(b"* phase"), set_word(3, lambda w: b"-" if w == b"+" else b"+"))
    yield tag + "order of two phases", neighbours(head(b"* phase"))
    if version == 2:
        yield tag + "net of a call", change_line(r, text, call, lambda x: (lambda w, k: b" ".join(w[:k] + [other(w[k])] + w[k + 1:]))(x.split(b" "), r.randrange(3, len(x.split(b" ")) - 1)))
        yield tag + "two nets of a call", change_line(r, text, call, lambda x: swap_words(r, 3, len(x.split(b" ")) - 1)(x))
        yield tag + "order of two calls", neighbours(call)
        yield tag + "call left out", drop_line(r, text, call)


def report_plants(r, text):
    for key in KEYS + ["ck1", "ck2"]:
        yield "report: %s by one" % key, change_line(r, text, head(key.encode()), set_word(1, lambda w: b"%d" % (int(w) + r.choice([1, -1])) if w != b"0" else b"1"))
    yield "report: model", change_line(r, text, head(b"model"), set_word(1, lambda w: w + b"x"))
    yield "report: line left out", drop_line(r, text, lambda x: x != b"")


def report_deck_plants(r, text):
    device = lambda x: x[:1] == b"m"
    yield "report: device of the deck left out", drop_line(r, text, device)
    yield "report: sign of a sink in the deck", change_line(r, text, head(b"* phase"), set_word(3, lambda w: b"-" if w == b"+" else b"+"))
    yield "report: clock of a foot in the deck", change_line(r, text, lambda x: x[:1] == b"m" and b" ck1 vss " in x, lambda x: x.replace(b" ck1 ", b" ck2 "))


class Bench:
    def __init__(self, words):
        options = {"--which": "flat,sim,versions,report", "--methods": ",".join(draw.METHODS), "--seconds": "1000000", "--add": ""}
        plain = []
        words = list(words)
        self.plant = "--plant" in words
        self.quiet = "--quiet" in words
        words = [w for w in words if w not in ("--plant", "--quiet")]
        while words:
            w = words.pop(0)
            if w in options:
                options[w] = words.pop(0)
            elif "=" in w and w.split("=")[0] in options:
                options[w.split("=")[0]] = w.split("=", 1)[1]
            else:
                plain.append(w)
        program, first, count = plain
        self.seeds = range(int(first), int(first) + int(count))
        self.which = set(options["--which"].split(","))
        self.methods = options["--methods"].split(",")
        self.seconds = float(options["--seconds"])
        self.folder = tempfile.mkdtemp(prefix="judge", dir="/dev/shm")
        self.runner = Runner(os.path.abspath(program), self.folder)
        self.tally = collections.Counter()
        self.kept, self.differences = 0, 0
        self.planted, self.noticed = collections.Counter(), collections.Counter()
        self.file = os.path.abspath(options["--add"]) if options["--add"] else None

    def report_wrong(self, seed, wrong):
        for w in wrong:
            self.differences += 1
            print("DIFFERS seed %d %s" % (seed, w))
        if wrong and self.kept < 20:
            self.kept += 1
            goal = os.path.join(HERE, "fail", "%d" % seed)
            shutil.rmtree(goal, ignore_errors=True)
            shutil.copytree(self.folder, goal)
            with open(os.path.join(goal, "WRONG"), "w") as f:
                f.write("\n".join(self.runner.log + wrong) + "\n")

    def check(self, seed, kind, changed, judge):
        """Judges a changed saying; counts it where it is another than the program's."""
        if changed is None:
            return None
        self.planted[kind] += 1
        n = len(judge(changed)) and 1
        self.noticed[kind] += n
        return n

    def is_harmless(self, p, world, kind, changed):
        """A change of the flat text that isn't noticed: the program's own `run` of both texts must say the same."""
        spill("changed.blif", changed)
        stream = [[p.randrange(2) for _ in world.inputs] for _ in range(60)]
        spill("long.txt", b"".join(bytes(48 + b for b in pins) + b"\n" if pins else b"-\n" for pins in stream))
        a, b = self.runner.run(["run", "flat.blif", "long.txt"], "out"), self.runner.run(["run", "changed.blif", "long.txt"], "out2")
        self.tally["plants: changes not noticed, of which `run` says the same"] += a == b
        return [] if a == b else ["plant %s: not noticed, and `run` tells it" % kind]

    def case(self, seed):
        t, run = self.tally, self.runner.run
        for name in os.listdir("."):
            os.unlink(name)
        self.runner.log = []
        text, facts = draw.draw_text(seed)
        spill("c.blif", text)
        t["cases"] += 1
        world, refusal = None, None
        try:
            world = blif.World(blif.read(text))
        except blif.Refuse as e:
            refusal = e
        r = Random(2 * seed + 2 ** 41)
        if refusal:
            # a refused text is only counted, but its status and line must be those of the rules
            t["refused"] += 1
            t["refused: " + refusal.kind] += 1
            first = "flat" if "flat" in self.which else "synth"
            said = run([first, "c.blif"], "out")
            if said != (1, b"", refusal.text(b"c.blif")):
                return ["%s of a refused text: status %d, error %r and not %r" % (first, said[0], said[2], refusal.text(b"c.blif"))]
            return []
        self.spread(world, facts)
        wrong = []
        common, words, method, about = draw.draw_options(seed, self.methods)
        p = Random(seed)
        if "flat" in self.which:
            said = run(["flat", "c.blif"], "flat.blif")
            t["judged: flat"] += 1
            found = judge_flat(world, said, seed)
            wrong += found
            if self.plant and not found:
                for kind, changed in flat_plants(p, said[1]):
                    if self.check(seed, kind, changed, lambda c: judge_flat(world, (0, c, b""), seed)) == 0 and changed != said[1]:
                        wrong += self.is_harmless(p, world, kind, changed)
        one = two = None
        if self.which & {"versions", "report"}:
            one = run(asked("synth", ["c.blif"], common + (["--deck=1"] if seed % 5 == 0 else []), seed), "one.sp")
            if one[0] != 0 or one[2]:
                return wrong + ["synth: status %d, error %r" % (one[0], one[2])]
        if "versions" in self.which:
            two = run(asked("synth", ["c.blif"], ["--deck", "2"] + common, seed), "two.sp")
            if two[0] != 0 or two[2]:
                wrong.append("synth --deck 2: status %d, error %r" % (two[0], two[2]))
                two = None
            else:
                t["judged: versions"] += 1
                found = judge_versions(one[1], two[1])
                wrong += found
                if self.plant and not found:
                    for version in (1, 2):
                        for kind, changed in deck_plants(p, (one if version == 1 else two)[1], version):
                            self.check(seed, kind, changed, lambda c: judge_versions(c, two[1]) if version == 1 else judge_versions(one[1], c))
        if "report" in self.which:
            said = run(asked("report", ["c.blif"], common, seed), "report.txt")
            t["judged: report"] += 1
            deck_text = two[1] if two and seed % 3 == 0 else one[1]
            clocks = draw_phases(common)
            found = judge_report(world, deck_text, clocks, said)
            wrong += found
            for line in said[1].split(b"\n"):
                for key in (b"both", b"minus", b"cells", b"levels"):
                    if line.startswith(key + b" "):
                        v = int(line.split()[1])
                        t["report: %s %s" % (key.decode(), v if v < 3 else "3 to 5" if v < 6 else "6 or more")] += 1
            t["report: %s, %d clocks" % ("precharge" if "precharge" in " ".join(common) else "keeper", clocks)] += 1
            if self.plant and not found:
                for kind, changed in report_plants(p, said[1]):
                    self.check(seed, kind, changed, lambda c: judge_report(world, deck_text, clocks, (0, c, b"")))
                for kind, changed in report_deck_plants(p, one[1]):
                    self.check(seed, kind, changed, lambda c: judge_report(world, c, clocks, said))
        if "sim" in self.which:
            wrong += self.case_of_sim(seed, world, words, method, about, r, p, one, two)
        return wrong

    def case_of_sim(self, seed, world, words, method, about, r, p, one, two):
        t, run = self.tally, self.runner.run
        file = "d.sp"
        if method == "plain" and one and not any(w.startswith("--deck") for w in words):
            file, said = "one.sp", one
        elif method == "deck2" and two:
            file, said = "two.sp", two
        else:
            said = run(asked("synth", ["c.blif"], words, seed), "d.sp")
        if said[0] == 2 and method != "plain":
            t["not offered: " + method] += 1
            return []
        sinks = len(world.outputs) + len(world.latches)
        if method == "exact" and sinks > 12:
            t["exact: too many sinks"] += 1
            return [] if said == (1, b"", b"domsyn: c.blif: too many sinks %d\n" % sinks) else ["synth --exact: %d sinks, and %r" % (sinks, said)]
        if said[0] != 0 or said[2]:
            return ["synth %s: status %d, error %r" % (" ".join(words), said[0], said[2])]
        circuit, wrong = read_deck(said[1], "sim")
        if wrong:
            return wrong
        stream = draw.draw_stream(r, len(world.inputs))
        spill("s.txt", draw.write_stimulus(r, stream, len(world.inputs)))
        more, facts = draw.draw_sim(r, circuit.nets, method == "skew" or about["phases"] == 1)
        trace = run(asked("sim", [file, "s.txt"], more, seed), "trace.txt")
        if facts["skew"] and trace[0] == 2:
            t["not offered: sim --skew"] += 1
            return []
        t["judged: sim"] += 1
        t["sim: %s, %s, %d clocks%s" % (method, about["style"], about["phases"], ", sim --skew" if facts["skew"] else "")] += 1
        t["sim: width %d" % about["width"]] += 1
        t["sim: height %d" % about["height"]] += 1
        t["sim: order " + facts["order"]] += 1
        t["sim: cycles %d" % len(stream)] += 1
        t["sim: all events told"] += facts["events"]
        t["sim: probes"] += bool(facts["probes"])
        t["sim: refused for a probe"] += any(n not in circuit.nets for n, e in facts["probes"])
        t["sim: devices %s" % ("0 to 30", "31 to 100", "101 to 200", "over 200")[sum(len(circuit.devices) > x for x in (30, 100, 200))]] += 1
        found = judge_sim(world, circuit, facts, stream, trace)
        if self.plant and not found and trace[0] == 0:
            for kind, changed in sim_plants(p, trace[1], facts):
                self.check(seed, kind, changed, lambda c: judge_sim(world, circuit, facts, stream, (0, c, b"")))
            self.check(seed, "sim: status 6", trace[1], lambda c: judge_sim(world, circuit, facts, stream, (6, c, b"")))
            self.check(seed, "sim: status 1", b"", lambda c: judge_sim(world, circuit, facts, stream, (1, c, b"domsyn: d.sp: deck port 2\n")))
        return found

    def spread(self, world, facts):
        t = self.tally
        t["texts: %s models in the file" % (len(world.models))] += 1
        t["texts: %s places" % (len(world.places) if len(world.places) < 5 else "5 or more")] += 1
        t["texts: with latches"] += bool(world.latches)
        t["texts: latches of more than one place"] += len({p.id for p, i in world.latches}) > 1
        t["texts: with a control"] += world.control is not None
        t["texts: control is no input"] += world.control is not None and world.control[1] not in world.root.model.inputs
        t["texts: no inputs"] += not world.inputs
        t["texts: no outputs"] += not world.outputs
        t["texts: an output is an input"] += any(n in world.inputs for n in world.outputs)
        starts = {p.model.items[i].init for p, i in world.latches}
        for s in starts:
            t["texts: a latch with start %d" % s] += 1
        bound = loose = wire = 0
        for p in world.places:
            for i, item in enumerate(p.model.items):
                if isinstance(item, blif.Call):
                    unit, names = world.by_name[item.unit], {f for f, a in item.binds}
                    loose |= any(n not in names for n in unit.outputs)
                    acts = [a for f, a in item.binds]
                    bound |= len(set(acts)) < len(acts)
                    wire |= any(n in unit.inputs for n in unit.outputs)
        t["texts: an output left unbound"] += loose
        t["texts: two formals of one instance are one signal"] += bound
        t["texts: a submodel's output is its input"] += wire
        t["texts: loop of latches"] += loops(world)
        tables = [item for p, i, item in world.cards() if isinstance(item, blif.Table)]
        t["texts: rows that end in 0"] += any(x.rows and not x.on for x in tables)
        t["texts: constants"] += any(not x.inputs for x in tables)
        seen = set()
        order = False
        for m in world.models:
            seen = set()
            outs = {x.output for x in m.items if not isinstance(x, blif.Call)}
            for x in m.items:
                if isinstance(x, blif.Table):
                    order |= any(n in outs and n not in seen and not any(isinstance(y, blif.Latch) and y.output == n for y in m.items) for n in x.inputs)
                    seen.add(x.output)
        t["texts: tables out of order"] += order
        names = [n for m in world.models for x in m.items if isinstance(x, blif.Table) for n in x.inputs + [x.output]]
        t["texts: odd names"] += any(not n.isalnum() or n != n.lower() for n in names)

    def go(self):
        signal.signal(signal.SIGALRM, rang)
        signal.signal(signal.SIGTERM, lambda *_: sys.exit(143))
        os.chdir(self.folder)
        start, cpu = time.perf_counter(), time.process_time()
        try:
            for seed in self.seeds:
                if time.perf_counter() - start > self.seconds:
                    print("ends before seed %d: %s seconds are over" % (seed, self.seconds))
                    break
                self.report_wrong(seed, self.case(seed))
        finally:
            os.chdir("/")
            shutil.rmtree(self.folder, ignore_errors=True)
        wall, cpu = time.perf_counter() - start, time.process_time() - cpu
        t = self.tally
        t["runs"], t["differences"] = self.runner.runs, self.differences
        times = collections.Counter(wall=wall, cpu=cpu, spent=self.runner.spent)
        if self.file:
            parts = [t, self.planted, self.noticed, times]
            if os.path.exists(self.file):
                with open(self.file) as f:
                    for part, more in zip(parts, json.load(f)):
                        part.update(more)
            with open(self.file, "w") as f:
                json.dump(parts, f)
        if not self.quiet:
            for key in sorted(t):
                if t[key] and not key.startswith("judged") and key not in ("runs", "differences"):
                    print("%6d  %s" % (t[key], key))
        if self.plant:
            print("changes planted and noticed, by kind:")
            for kind in sorted(self.planted):
                print("%6d of %6d  %s" % (self.noticed[kind], self.planted[kind], kind))
        n = max(1, t["cases"])
        print("%d cases, %d refused; judged: %s; differences %d; %d runs; a case: %.1f ms in all, %.1f ms of Python's processor time, %.1f ms in runs"
              % (t["cases"], t["refused"], ", ".join("%s %d" % (w, t["judged: " + w]) for w in ("flat", "sim", "versions", "report") if w in self.which),
                 t["differences"], t["runs"], 1000 * times["wall"] / n, 1000 * times["cpu"] / n, 1000 * times["spent"] / n))
        return 1 if self.differences else 0


def asked(command, files, options, seed):
    """The words of a command, the options behind the files or before them."""
    return [command] + (files + options if seed % 4 else options + files)


def draw_phases(words):
    text = " ".join(words).replace("=", " ").split(" ")
    return int(text[text.index("--phases") + 1]) if "--phases" in text else 1


def loops(world):
    """A latch whose next value hangs on its own: seen in the cards alone."""
    for p, i in world.latches:
        todo, seen = [(p, p.model.items[i].input)], set()
        while todo:
            q, n = todo.pop()
            a, m, d = world.found(q, n)
            if d is None or d in seen:
                continue
            seen.add(d)
            item = d[0].model.items[d[1]]
            if d == (p, i):
                return True
            todo += [(d[0], x) for x in (item.inputs if isinstance(item, blif.Table) else [item.input])]
    return False


if __name__ == "__main__":
    if len(sys.argv) < 4:
        sys.exit(__doc__)
    sys.exit(Bench(sys.argv[1:]).go())
