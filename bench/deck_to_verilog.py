#!/usr/bin/env python3
"""Writes a Verilog model of a deck over a stimulus, of switches, for the comparison with Icarus Verilog.

    deck_to_verilog.py DECK STIM [lean|skew] > FILE

Each device is a switch primitive without delay. Where one end of it is a source of the circuit, the value goes to the
other end alone: `nmos`, `pmos`, and `rpmos` for `pkeep`, which loses strength. Else it is `tranif1`, `tranif0` or
`rtranif0`; in the Nand of a compound cell it is an `nmos` towards the output, since Icarus settles a `tranif` later than what is beside it.
A net that isn't the output of an inverter or such a Nand keeps its value by a register that follows it and drives it with
weak strength, since Icarus has no `trireg`. With `lean` only those of these nets do that gate a device or are outputs;
the inner nets of a tree then lose their value where the model keeps it. The initial block has the moves of
power and of the cycles, one time unit for each going to rest, and writes a line `cycle C in PINS out OUTS` for each cycle. With `skew`
each clock but the last falls once the next one has risen, as `domsyn sim --skew` has them.

It takes decks as `domsyn` writes them, in either version: a card on a line but for the lines of ports, no other comments among them.
"""
import sys
from collections import defaultdict


def read_deck(text):
    """The ports, and the devices as (drain, gate, source, model), with each call replaced by those that it stands for."""
    ports, devices, cells, name = [], [], {}, None
    for line in text.splitlines():
        words = line.lower().split()
        if not words or words[0].startswith("*"):
            continue
        if words[0] == ".subckt":
            name, ports, devices = words[1], words[2:], []
        elif words[0].startswith("+"):
            ports += [word for word in [words[0][1:]] + words[1:] if word]
        elif words[0].startswith("m"):
            devices.append((words[1], words[2], words[3], words[5]))
        elif words[0].startswith("x"):
            inner_ports, inner = cells[words[-1]]
            nets = dict(zip(inner_ports, words[1:-1]))
            devices += [(*(nets.get(net, f"{words[0]}.{net}") for net in device[:3]), device[3]) for device in inner]
        elif words[0] == ".ends":
            cells[name] = (ports, devices)
        else:
            sys.exit("unknown card: " + line)
    return ports, devices


def read_stimulus(text, width):
    """The cycles, each a text of the pins' bits."""
    lines = ("".join(line.split("#")[0].split()) for line in text.split("\n"))
    cycles = [line for line in lines if line]
    if any(line != "-" if width == 0 else len(line) != width or line.strip("01") for line in cycles):
        sys.exit("not a stimulus of the deck")
    return cycles


def inverter_outputs(devices):
    """The nets at which nothing ends but a `pch` to `vdd` and an `nch` to `vss` of one gate."""
    ends = defaultdict(list)
    for drain, gate, source, model in devices:
        ends[drain].append((gate, source, model))
        ends[source].append(None)
    return {net for net, there in ends.items()
            if len(there) == 2 and None not in there and there[0][0] == there[1][0]
            and {cell[1:] for cell in there} == {("vdd", "pch"), ("vss", "nch")}}


def nand_nets(devices):
    """Of each static Nand of a compound cell the net inside it, with its output: there end a `pch` to `vdd` for each of two gates, and an
    `nch` of one of them to the net inside, from which an `nch` of the other one leads to `vss`."""
    ends = defaultdict(list)
    for device in devices:
        ends[device[0]].append(device)
        ends[device[2]].append(device)
    found = {}
    for out, there in ends.items():
        gates = [gate for drain, gate, source, model in there if (drain, source, model) == (out, "vdd", "pch")]
        lower = [device for device in there if device[0] == out and device[3] == "nch"]
        if len(there) == 3 and len(gates) == 2 and len(lower) == 1 and lower[0][1] in gates:
            inner, other = lower[0][2], gates[lower[0][1] == gates[0]]
            if len(ends[inner]) == 2 and (inner, other, "vss", "nch") in ends[inner]:
                found[inner] = out
    return found


def name(net):
    """A net's name in Verilog: an escaped one, with the blank that ends it."""
    return "\\" + net + " "


def switch(place, device, sources, nands):
    drain, gate, source, model = device
    if drain in sources and source in sources:
        return
    if nands.get(source) == drain:
        yield f"  nmos M{place}({name(drain)}, {name(source)}, {name(gate)});\n"
    elif drain in sources or source in sources:
        kind = {"nch": "nmos", "pch": "pmos", "pkeep": "rpmos"}[model]
        near, far = (source, drain) if source in sources else (drain, source)
        yield f"  {kind} M{place}({name(far)}, {name(near)}, {name(gate)});\n"
    else:
        kind = {"nch": "tranif1", "pch": "tranif0", "pkeep": "rtranif0"}[model]
        yield f"  {kind} M{place}({name(drain)}, {name(source)}, {name(gate)});\n"


def bits(nets):
    return "{" + ", ".join(name(net) for net in nets) + "}"


def moves(clocks, pins, outs, cycles, skew):
    """The moves of power and of the cycles."""
    yield "  initial begin\n"
    yield "".join(f"    {name(clock)}= 0;\n" for clock in clocks)
    yield "    lm = 0; lmb = 1; ls = 0; lsb = 1; rs = 1; rsb = 0;\n"
    if pins:
        yield f"    {bits(pins)} = 0;\n"
    yield "    #1 rs = 0; rsb = 1;\n"
    yield f"    #1 for (c = 0; c < {len(cycles)}; c = c + 1) begin\n"
    if pins:
        yield f"      {bits(pins)} = stimulus[c]; #1;\n"
    for place, clock in enumerate(clocks):
        yield f"      {name(clock)}= 1; #1;\n"
        if skew and place > 0:
            yield f"      {name(clocks[place - 1])}= 0; #1;\n"
    given = "%b" if pins else "-"
    taken = "%b" if outs else "-"
    words = [bits(nets) for nets in (pins, outs) if nets]
    yield "      " + ", ".join([f'$display("cycle %0d in {given} out {taken}"', "c"] + words) + ");\n"
    yield "      lm = 1; lmb = 0; #1 lm = 0; lmb = 1; #1;\n"
    yield "".join(f"      {name(clock)}= 0;\n" for clock in clocks)
    yield "      #1 ls = 1; lsb = 0; #1 ls = 0; lsb = 1; #1;\n"
    yield "    end\n  end\n"


def keeper(place, net):
    """A net keeps its value."""
    return (f"  reg KEEP{place};\n"
            f"  always @({name(net)}) if ({name(net)} !== 1'bz) KEEP{place} = {name(net)};\n"
            f"  assign (weak0, weak1) {name(net)} = KEEP{place};\n")


def model(ports, devices, cycles, word):
    sources = {port for port in ports if not port.startswith("o_")}
    clocks = [port for port in ports if port.startswith("ck")]
    pins = [port for port in ports if port.startswith("i_")]
    outs = [port for port in ports if port.startswith("o_")]
    nets = dict.fromkeys(net for device in devices for net in device[:3] if net not in sources)
    nets.update(dict.fromkeys(outs))
    nands = nand_nets(devices)
    steady = inverter_outputs(devices) | {*nands, *nands.values()}
    if word == "lean":
        steady |= set(nets) - {device[1] for device in devices} - set(outs)
    yield "module deck;\n  supply1 vdd;\n  supply0 vss;\n  reg lm, lmb, ls, lsb, rs, rsb;\n  integer c;\n"
    yield "".join(f"  reg {name(net)};\n" for net in clocks + pins)
    yield "".join(f"  wire {name(net)};\n" for net in nets)
    yield f"  reg [{max(len(pins), 1) - 1}:0] stimulus [0:{max(len(cycles), 1) - 1}];\n"
    for place, device in enumerate(devices):
        yield from switch(place, device, sources, nands)
    yield "".join(keeper(place, net) for place, net in enumerate(nets) if net not in steady)
    if pins:
        yield "  initial begin\n"
        yield "".join(f"    stimulus[{c}] = {len(pins)}'b{line};\n" for c, line in enumerate(cycles))
        yield "  end\n"
    yield from moves(clocks, pins, outs, cycles, word == "skew")
    yield "endmodule\n"


def main():
    if len(sys.argv) not in (3, 4) or sys.argv[3:] not in ([], ["lean"], ["skew"]):
        sys.exit("usage: deck_to_verilog.py DECK STIM [lean|skew] > FILE")
    with open(sys.argv[1]) as deck:
        ports, devices = read_deck(deck.read())
    with open(sys.argv[2]) as stimulus:
        cycles = read_stimulus(stimulus.read(), sum(port.startswith("i_") for port in ports))
    for piece in model(ports, devices, cycles, "".join(sys.argv[3:])):
        sys.stdout.write(piece)


if __name__ == "__main__":
    main()
