#!/usr/bin/env python3
"""Writes what a deck does as BLIF, for the comparison with its source by ABC: read from its devices alone.

    deck_to_blif.py DECK > FILE

Each device has to be a part of one of these, or the deck is refused: a domino cell (a device that charges `d` while a clock is 0,
a keeper or, in a deck without keepers, one more such device at each inner net, a pull-down between `d` and a foot that is on while the
same clock is 1, which comes apart in series and in parallel), an inverter, a Nand of two dynamic nets (a compound cell's output, or a sink
of it), a clocked inverter of a latch, the reset of a latch. What
gates a pull-down has to be a pin, a latch, an inverter of these, or the output of a cell of the same or an earlier clock. A series of two
devices becomes an And, two devices side by side an Or, both as tables of their own, so that the text grows with the deck. It takes decks
as `domsyn` writes them.
"""
import sys
from collections import defaultdict

from deck_to_verilog import read_deck

LATCH_GATES = {"lm", "lmb", "ls", "lsb", "rs", "rsb"}


def name(port):
    """The name behind `i_` or `o_`, with its escapes taken back."""
    parts = port[2:].split("_")
    return parts[0] + "".join(chr(int(part[:2], 16)) + part[2:] for part in parts[1:])


class Circuit:
    def __init__(self, ports, devices):
        self.ports = ports
        self.left = set(range(len(devices)))
        self.devices = devices
        self.at = defaultdict(list)
        for place, (drain, _, source, _) in enumerate(devices):
            self.at[drain].append(place)
            self.at[source].append(place)
        self.lines = [".names $vdd\n1\n.names $vss\n"]
        self.clock = {}                                 # of each output of a cell the number of its clock
        self.steady = {port for port in ports if port.startswith("i_")} | {"vdd", "vss"}
        self.has_keepers = any(model == "pkeep" for _, _, _, model in devices)
        self.fresh = 0

    def take(self, drain, gate, source, model):
        """Takes the device of this kind, of which there has to be one: its gate, where `gate` is None."""
        found = [p for p in self.at[drain] if p in self.left and self.devices[p][0] == drain
                 and self.devices[p][2:] == (source, model) and gate in (None, self.devices[p][1])]
        if len(found) != 1:
            sys.exit(f"{len(found)} devices {drain} {gate} {source} {model}")
        self.left.remove(found[0])
        return self.devices[found[0]][1]

    def table(self, text, *nets):
        self.lines.append(".names $" + " $".join(nets) + "\n" + text + "\n")

    def joined(self, first, second, rows):
        self.fresh += 1
        self.table(rows, first, second, f"${self.fresh}")
        return f"${self.fresh}"

    def pull_down(self, top, clock):
        """Takes the devices from `top` down to a foot, with those that charge its inner nets where there are no keepers, and returns the
        net of BLIF that is 1 where it conducts."""
        edges, seen, waiting, foot = [], {top}, [top], None
        while waiting:
            net = waiting.pop()
            for place in self.at[net]:
                drain, gate, source, model = self.devices[place]
                if place not in self.left or model != "nch":
                    continue
                if source == "vss":
                    if gate != clock or foot not in (None, net):
                        sys.exit("no foot: " + net)
                    foot = net
                    continue
                self.left.remove(place)
                edges.append((drain, source, self.gate(gate, clock)))
                for end in (drain, source):
                    if end not in seen:
                        seen.add(end)
                        waiting.append(end)
        self.take(foot, clock, "vss", "nch")
        for net in () if self.has_keepers else seen - {top, foot}:
            self.take(net, clock, "vdd", "pch")
        return self.reduced(edges, top, foot)

    def gate(self, net, clock):
        if net not in self.steady and self.clock.get(net, "ck9") > clock:
            sys.exit(f"{net} gates a pull-down of {clock}")
        return net

    def reduced(self, edges, top, foot):
        while len(edges) > 1:
            sides = {}
            for first, second, net in edges:
                ends = tuple(sorted((first, second)))
                sides[ends] = self.joined(sides[ends], net, "1- 1\n-1 1") if ends in sides else net
            edges = [(*ends, net) for ends, net in sides.items()]
            there = defaultdict(list)
            for edge in edges:
                there[edge[0]].append(edge)
                there[edge[1]].append(edge)
            inner = next((net for net, of in there.items() if net not in (top, foot) and len(of) == 2), None)
            if inner is None:
                if len(edges) > 1:
                    sys.exit("a pull-down that is no series and no parallel: " + top)
                continue
            one, two = there[inner]
            ends = [end for edge in (one, two) for end in edge[:2] if end != inner]
            edges = [edge for edge in edges if edge not in (one, two)] + [(*ends, self.joined(one[2], two[2], "11 1"))]
        if {*edges[0][:2]} != {top, foot}:
            sys.exit("a pull-down that ends nowhere: " + top)
        return edges[0][2]

    def dynamic_nets(self):
        """The nets that a clock charges and that gate inverters, each with its clock and the outputs of these."""
        outputs = defaultdict(list)
        for drain, gate, source, model in self.devices:
            if (source, model) == ("vdd", "pch"):
                outputs[gate].append(drain)
        return [(drain, gate, outputs[drain]) for drain, gate, source, model in self.devices
                if (source, model) == ("vdd", "pch") and gate.startswith("ck") and drain in outputs]

    def cells(self):
        # A cell may stand before one that it reads: the clocks of the outputs are looked up first.
        found = self.dynamic_nets()
        for _, clock, outputs in found:
            self.clock.update(dict.fromkeys(outputs, clock))
        for dynamic, clock, outputs in found:
            self.take(dynamic, clock, "vdd", "pch")
            if self.has_keepers and self.take(dynamic, None, "vdd", "pkeep") not in outputs:
                sys.exit("no keeper: " + dynamic)
            self.table("0 1", self.pull_down(dynamic, clock), dynamic)

    def static_gate(self, net):
        """Takes the inverter, or the Nand of two nets, that drives `net`."""
        gates = [self.devices[p][1] for p in self.at[net] if p in self.left and self.devices[p][0] == net
                 and self.devices[p][2:] == ("vdd", "pch")]
        if len(gates) != 2:
            self.inverter(net)
            return
        lower = [self.devices[p][2] for p in self.at[net] if p in self.left and self.devices[p][3] == "nch"]
        if len(lower) != 1 or len(self.at[lower[0]]) != 2:
            sys.exit("no static gate: " + net)
        for gate in gates:
            self.take(net, gate, "vdd", "pch")
        self.take(net, gates[0], lower[0], "nch")
        self.take(lower[0], gates[1], "vss", "nch")
        self.table("0- 1\n-0 1", *gates, net)

    def inverter(self, net):
        gate = self.take(net, None, "vdd", "pch")
        self.take(net, gate, "vss", "nch")
        self.table("0 1", gate, net)
        return gate

    def clocked_inverter(self, net, when, when_low):
        """Takes the clocked inverter that drives `net`, and returns its input."""
        high = next(self.devices[p][2] for p in self.at[net] if self.devices[p][1] == when_low)
        low = next(self.devices[p][2] for p in self.at[net] if self.devices[p][1] == when)
        self.take(net, when_low, high, "pch")
        self.take(net, when, low, "nch")
        gate = self.take(high, None, "vdd", "pch")
        self.take(low, gate, "vss", "nch")
        if len(self.at[high]) != 2 or len(self.at[low]) != 2:
            sys.exit("no clocked inverter: " + net)
        return gate

    def latches(self):
        for drain, gate, source, model in self.devices:
            if (gate, source, model) in (("rsb", "vdd", "pch"), ("rs", "vss", "nch")):
                self.take(drain, gate, source, model)
                master = self.clocked_inverter(drain, "ls", "lsb")
                data = self.clocked_inverter(master, "lm", "lmb")
                self.lines.append(f".latch ${data} ${drain} {int(gate == 'rsb')}\n")
                self.steady.add(drain)

    def static_inverters(self):
        """The inverters of pins and latches: their nets are steady too."""
        for place, (drain, gate, _, model) in enumerate(self.devices):
            if place in self.left and model == "pch" and gate in self.steady:
                self.inverter(drain)
                self.steady.add(drain)

    def text(self):
        self.latches()
        self.static_inverters()
        self.cells()
        for place, (drain, _, _, model) in enumerate(self.devices):
            if place in self.left and model == "pch":
                self.static_gate(drain)
        if self.left:
            sys.exit("left over: " + " ".join(self.devices[min(self.left)]))
        pins = [port for port in self.ports if port.startswith("i_")]
        outs = [port for port in self.ports if port.startswith("o_")]
        yield ".model deck\n.inputs " + " ".join(map(name, pins)) + "\n.outputs " + " ".join(map(name, outs)) + "\n"
        yield "".join(f".names {name(pin)} ${pin}\n1 1\n" for pin in pins)
        yield from self.lines
        yield "".join(f".names ${out} {name(out)}\n1 1\n" for out in outs)
        yield ".end\n"


def main():
    if len(sys.argv) != 2:
        sys.exit("usage: deck_to_blif.py DECK > FILE")
    with open(sys.argv[1]) as deck:
        ports, devices = read_deck(deck.read())
    sys.stdout.write("".join(Circuit(ports, devices).text()))


if __name__ == "__main__":
    main()
