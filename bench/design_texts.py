#!/usr/bin/env python3
"""The texts that designs.sh needs beside a design.

    design_texts.py stimulus FLAT CYCLES > STIM      random bits for the inputs of what `domsyn flat` printed, the same each time
    design_texts.py testbench TOP FLAT STIM > FILE   Verilog that runs the module TOP, with lines as those of `domsyn run`
    design_texts.py with_inputs BLIF OTHER > FILE    OTHER with those inputs of BLIF that it lacks (the clock), for ABC
    design_texts.py cut BLIF > FILE                  BLIF of one model without its latches: inputs state_J, outputs next_J and start_J
    design_texts.py without_clock BLIF > FILE        BLIF without its input `clk`, for what ABC wrote
    design_texts.py alike RUN LINES                  how many cycles of two texts are alike
    design_texts.py alike_but_x RUN LINES            the same, where an x of LINES is like any value
    design_texts.py counts BLIF FLAT DECK            the numbers of inputs, outputs, latches, tables, cells and devices
    design_texts.py figures DECK                     the numbers of cells (of those compound ones, if any), levels and devices of a deck
    design_texts.py shuffled DECK > FILE             the deck with its devices and calls in another order and half of the ends exchanged
    design_texts.py same_devices DECK OTHER          whether two decks, their calls expanded, have the same ports and devices in order
    design_texts.py ngspice DECK SIZED STIM > FILE   a circuit for ngspice that runs the sized deck over the stimulus
    design_texts.py voltages STIM OUTPUT > LINES     the lines that ngspice's OUTPUT gives: x is a voltage that is neither low nor high
"""
import random
import re
import sys

from deck_to_verilog import read_deck, read_stimulus

# Inputs whose names begin with these words are mostly 0, so that a design has time for something else.
RARE = ("reset", "clear", "load", "start", "spoil", "errors", "last", "test", "blank")
HIGH, PERIOD = 1.8, 24


def read(path):
    with open(path) as file:
        return file.read()


def ports(text, card):
    """The names behind `.inputs` or `.outputs` of the first model."""
    model = re.sub(r"\\\n", " ", text).split("\n.model", 2)
    lines = (model[0] if model[0].startswith(".model") else model[1]).split("\n")
    return [word for line in lines if line.split()[:1] == [card] for word in line.split()[1:]]


def stimulus(flat, cycles):
    names = ports(flat, ".inputs")
    draw = random.Random(" ".join(names))
    for cycle in range(int(cycles)):
        line = ""
        for name in names:
            chance = 1 / 16 if name.startswith(RARE) else 1 / 2
            if name in ("reset", "clear") and cycle == 0:
                chance = 1
            if name.endswith("_low"):
                chance = 1 - chance
            line += str(int(draw.random() < chance))
        yield (line or "-") + "\n"


def declared(kind, names):
    """Declarations of ports whose bits have these names."""
    widths = {}
    for name in names:
        base, _, place = name.rstrip("]").partition("[")
        widths[base] = max(widths.get(base, -1), int(place or -1))
    return "".join(f"  {kind} {f'[{width}:0] ' if width >= 0 else ''}{base};\n" for base, width in widths.items()), list(widths)


def testbench(top, flat, text):
    ins, outs = ports(flat, ".inputs"), ports(flat, ".outputs")
    cycles = read_stimulus(text, len(ins))
    in_lines, in_ports = declared("reg", ins)
    out_lines, out_ports = declared("wire", outs)
    clock = [] if "\n.latch" not in flat else ["clk"]
    yield f"module bench;\n  integer cycle_;\n  reg clk;\n{in_lines}{out_lines}"
    yield f"  reg [{max(len(ins), 1) - 1}:0] bits_ [0:{max(len(cycles), 1) - 1}];\n"
    yield f"  {top} unit_({', '.join(f'.{port}({port})' for port in clock + in_ports + out_ports)});\n  initial begin\n    clk = 0;\n"
    yield "".join(f"    bits_[{c}] = {len(ins)}'b{line};\n" for c, line in enumerate(cycles) if ins)
    taken, given = "{" + ", ".join(outs) + "}", "{" + ", ".join(ins) + "}"
    yield f"    #1 for (cycle_ = 0; cycle_ < {len(cycles)}; cycle_ = cycle_ + 1) begin\n"
    if ins:
        yield f"      {given} = bits_[cycle_];\n"
    words = f', {given}, {taken}' if ins else f', {taken}'
    yield f'      #1 $display("cycle %0d in {"%b" if ins else "-"} out %b", cycle_{words});\n'
    yield "      clk = 1; #1 clk = 0; #1;\n    end\n  end\nendmodule\n"


def with_inputs(blif, other):
    there = set(ports(other, ".inputs"))
    missing = [name for name in ports(blif, ".inputs") if name not in there]
    card = ".inputs " + " ".join(missing) if missing else ""
    return re.sub(r"(?m)^(\.outputs .*)$", lambda found: card + "\n" + found[1], other, count=1)


def cut(blif):
    latches = [line.split() for line in blif.split("\n") if line.startswith(".latch ")]
    cards = ""
    for place, words in enumerate(latches):
        start = "1" if words[-1] == "1" else ""
        cards += f".inputs state_{place}\n.outputs next_{place} start_{place}\n"
        cards += f".names state_{place} {words[2]}\n1 1\n.names {words[1]} next_{place}\n1 1\n.names start_{place}\n{start}\n"
    rest = re.sub(r"(?m)^\.latch .*\n", "", blif)
    return re.sub(r"(?m)^(?=\.names |\.end)", lambda found: cards, rest, count=1)


def alike(run, lines, unknown=""):
    wanted = [line.split(" events")[0] for line in run.split("\n") if line.startswith("cycle")]
    found = [line for line in lines.split("\n") if line.startswith("cycle")]
    same = len(wanted) == len(found) > 0 and all(
        len(one) == len(two) and all(a == b or b in unknown for a, b in zip(one, two)) for one, two in zip(wanted, found))
    if same:
        return f"{len(found)}"
    first = next((one + " / " + two for one, two in zip(wanted, found) if one != two), f"{len(wanted)} and {len(found)} lines")
    return "OTHER " + first


def alike_but_x(run, lines):
    return alike(run, lines, "x")


def counts(blif, flat, deck):
    devices = [line for line in deck.split("\n") if line.startswith("m")]
    return " ".join(map(str, [
        len(ports(flat, ".inputs")), len(ports(flat, ".outputs")), flat.count("\n.latch "), flat.count("\n.names "),
        sum(re.match(r"m\d+ d\d+ ck\d ", line) is not None for line in devices), len(devices)]))


def figures(deck):
    _, devices = read_deck(deck)
    sides = {net for net, _, _, model in devices if model == "pch" and re.fullmatch(r"[de]\d+", net)}
    reads = {net[1:]: set() for net in sides}
    for drain, gate, _, model in devices:
        inner = re.fullmatch(r"[deut](\d+)(_\d+)?", drain)
        if model == "nch" and inner and gate.startswith("z"):
            reads[inner[1]].add(gate[1:])
    level = {}
    for cell in sorted(reads, key=int):  # each reads earlier cells alone
        level[cell] = 1 + max((level[one] for one in reads[cell]), default=0)
    compound = len(sides) - len(reads)
    return f"{len(reads)}{f' ({compound})' * (compound > 0)}, {max(level.values(), default=0)}, {len(devices)}"


def shuffled(deck):
    draw = random.Random(len(deck))
    lines = deck.split("\n")
    starts = [k for k, line in enumerate(lines) if line.startswith((".subckt", ".ends"))]
    for start, end in zip(starts, starts[1:]):
        places = [k for k in range(start, end) if lines[k].startswith(("m", "x"))]
        cards = [lines[k].split() for k in places]
        draw.shuffle(cards)
        for k, words in zip(places, cards):
            if words[0].startswith("m") and draw.random() < 1 / 2:
                words[1], words[3] = words[3], words[1]
            lines[k] = " ".join(words)
    return "\n".join(lines)


def same_devices(deck, other):
    return "same" if read_deck(deck) == read_deck(other) else "OTHER"


def wave(node, place, corners):
    """A source whose voltage moves within 0.2 ns to each level at its time."""
    points, level = [], corners[0][1]
    for time, to in corners:
        points += [f"{time:.1f}n {level * HIGH:.1f}", f"{time + 0.2:.1f}n {to * HIGH:.1f}"]
        level = to
    return f"v{place} {node} 0 pwl(0 {corners[0][1] * HIGH:.1f} {' '.join(points)})\n"


def ngspice(deck, sized_path, text):
    deck_ports, _ = read_deck(deck)
    pins = [port for port in deck_ports if port.startswith("i_")]
    outs = [port for port in deck_ports if port.startswith("o_")]
    clocks = [port for port in deck_ports if port.startswith("ck")]
    cycles = read_stimulus(text, len(pins))
    starts = [(c + 1) * PERIOD for c in range(len(cycles))]  # power has the first period
    moves = {pin: [(0.5, 0)] + [(start + 0.5, int(line[k])) for start, line in zip(starts, cycles)] for k, pin in enumerate(pins)}
    for k, clock in enumerate(clocks):
        moves[clock] = [(0.5, 0)] + [move for start in starts for move in ((start + 3 + 2 * k, 1), (start + 17, 0))]
    for port, on, off in (("lm", 14, 16), ("ls", 19, 22)):
        moves[port] = [(0.5, 0)] + [move for start in starts for move in ((start + on, 1), (start + off, 0))]
        moves[port + "b"] = [(time, 1 - level) for time, level in moves[port]]
    moves["rs"], moves["rsb"] = [(0.5, 1), (12, 0)], [(0.5, 0), (12, 1)]
    yield f"* a deck over {len(cycles)} cycles\n.include models.inc\n.include {sized_path}\nvdd vdd 0 {HIGH}\nvss vss 0 0\n"
    yield "".join(wave(port, place, corners) for place, (port, corners) in enumerate(moves.items()))
    name = next(line.split()[1] for line in deck.split("\n") if line.startswith(".subckt"))
    yield "xdut\n" + "".join("+ " + port + "\n" for port in deck_ports) + f"+ {name}\n"
    yield "".join(f"cload{k} {out} 0 2f\n" for k, out in enumerate(outs))
    # threads of so small a circuit wait for each other longer than they work
    yield f".tran 50p {(len(cycles) + 1) * PERIOD}n\n.control\nset num_threads=1\nrun\n"
    for c, start in enumerate(starts):
        yield "".join(f"meas tran at_{c}_{k} find v({out}) at={start + 13}n\n" for k, out in enumerate(outs))
    yield "quit\n.endc\n.end\n"


def voltages(text, said):
    found = {tuple(map(int, key)): float(value) for *key, value in re.findall(r"(?m)^at_(\d+)_(\d+)\s*=\s*(\S+)", said)}
    cycles = [line.strip() for line in text.split("\n") if line.strip()]
    outs = 1 + max((key[1] for key in found), default=-1)
    for c, line in enumerate(cycles):
        levels = (found.get((c, k), HIGH / 2) for k in range(outs))
        yield f"cycle {c} in {line} out " + "".join("0" if v < HIGH / 6 else "1" if v > HIGH * 5 / 6 else "?" for v in levels) + "\n"


def main():
    kind, *words = sys.argv[1:] or [""]
    if kind == "stimulus":
        out = stimulus(read(words[0]), words[1])
    elif kind == "testbench":
        out = testbench(words[0], read(words[1]), read(words[2]))
    elif kind == "cut":
        out = cut(read(words[0]))
    elif kind == "without_clock":
        out = re.sub(r"(?m)^(\.inputs.*?) clk\b", r"\1", read(words[0]), count=1)
    elif kind == "ngspice":
        out = ngspice(read(words[0]), words[1], read(words[2]))
    elif kind in ("with_inputs", "alike", "alike_but_x", "counts", "figures", "shuffled", "same_devices", "voltages"):
        out = globals()[kind](*map(read, words))
    else:
        sys.exit(__doc__)
    sys.stdout.write("".join(out))
    if kind in ("alike", "alike_but_x", "counts", "figures", "same_devices"):
        print()


main()
