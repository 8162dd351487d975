"""A reader of decks, by docs/FORMATS.md (Deck text, as it is read), with calls expanded, and counts of a circuit. Own code of the judge."""
KINDS = {b"nch", b"pch", b"pkeep"}
CONTROLS = set(range(32)) - {9} | {127}
LOWER = bytes.maketrans(b"ABCDEFGHIJKLMNOPQRSTUVWXYZ", b"abcdefghijklmnopqrstuvwxyz")


class BadDeck(Exception):
    pass


class Circuit:
    def __init__(self, name, ports, devices, phases, calls):
        self.name, self.ports, self.devices, self.phases, self.calls = name, ports, devices, phases, calls
        nets = dict.fromkeys(ports)
        for kind, d, g, s in devices:
            nets[d] = nets[g] = nets[s] = None
        self.nets = list(nets)


def read(text):
    lines = text.split(b"\n")
    if lines[-1] == b"":
        lines.pop()
    cards, phases = [], []
    ended = False
    for at, line in enumerate(lines):
        if line.endswith(b"\r"):
            line = line[:-1]
        line = line.lstrip(b" \t").translate(LOWER)
        words = [w for w in line.replace(b"\t", b" ").split(b" ") if w]
        if not words:
            continue
        if line[:1] == b"*":
            if len(words) == 4 and words[:2] == [b"*", b"phase"] and words[3] in (b"+", b"-") and CONTROLS.isdisjoint(words[2]):
                phases.append((words[2], words[3]))
            continue
        if line[:1] == b"+":
            more = [w for w in line[1:].replace(b"\t", b" ").split(b" ") if w]
            if not cards:
                raise BadDeck("line %d: no card to go on" % (at + 1))
            cards[-1][1] += more
        else:
            if words[0] == b".end":
                break
            cards.append([at + 1, words])
        if not CONTROLS.isdisjoint(line):
            raise BadDeck("line %d: control byte" % (at + 1))
    subs, order, open_ = {}, [], None
    for number, words in cards:
        head, where = words[0], "line %d: " % number
        if head == b".subckt":
            if len(words) < 2 or any(b"=" in w for w in words):
                raise BadDeck(where + "subckt card")
            if open_ is not None or words[1] in subs:
                raise BadDeck(where + "second subckt")
            if len(set(words[2:])) != len(words) - 2:
                raise BadDeck(where + "a port twice")
            open_ = (words[1], words[2:], [])
        elif head == b".ends":
            if len(words) > 2 or open_ is None:
                raise BadDeck(where + "ends")
            subs[open_[0]] = open_
            order.append(open_[0])
            open_ = None
        elif head == b".model":
            pass
        elif head[:1] == b"m":
            if len(words) < 6 or words[5] not in KINDS or open_ is None:
                raise BadDeck(where + "device")
            open_[2].append((words[5], words[1], words[2], words[3], words[4]))
        elif head[:1] == b"x":
            if len(words) < 2 or any(b"=" in w for w in words) or open_ is None:
                raise BadDeck(where + "call")
            unit = subs.get(words[-1])
            if unit is None:
                raise BadDeck(where + "unknown subckt")
            if len(unit[1]) != len(words) - 2:
                raise BadDeck(where + "wrong count")
            open_[2].append((words[0], words[1:-1], words[-1]))
        else:
            raise BadDeck(where + "unknown card")
    if open_ is not None or not order:
        raise BadDeck("not closed, or none")
    calls = 0

    def spelled(name):
        out = []
        for item in subs[name][2]:
            if len(item) == 5:
                out.append(item[:4])
            else:
                call, passed, unit = item
                net = dict(zip(subs[unit][1], passed))
                for kind, d, g, s in spelled(unit):
                    out.append((kind,) + tuple(net[n] if n in net else call + b"." + n for n in (d, g, s)))
        return out
    last = order[-1]
    calls = sum(1 for item in subs[last][2] if len(item) == 3)
    return Circuit(last, subs[last][1], spelled(last), phases, calls)


def escape(name):
    return b"".join(bytes([c]) if 97 <= c <= 122 or 48 <= c <= 57 else b"_%02x" % c for c in name)


def count(c):
    """The figures of a deck of plain cells, from its devices alone: by feet, pull-downs above them, and inverters."""
    clocks = [p for p in c.ports if p[:2] == b"ck"]
    gated, ends = {}, {}
    for k, (kind, d, g, s) in enumerate(c.devices):
        gated.setdefault(g, []).append(k)
        ends.setdefault(d, []).append(k)
        ends.setdefault(s, []).append(k)
    inverter = {}  # output: its gate
    for kind, d, g, s in c.devices:
        if kind == b"pch" and s == b"vdd" and g not in clocks and len(ends[d]) == 2:
            if any(c.devices[k] == (b"nch", d, g, b"vss") for k in ends[d]):
                inverter[d] = g
    feet = [k for k, (kind, d, g, s) in enumerate(c.devices) if kind == b"nch" and g in clocks and s == b"vss"]
    cells, roots = [], {}
    for f in feet:
        bottom = c.devices[f][1]
        todo, nets, tree = [bottom], {bottom}, set()
        while todo:
            n = todo.pop()
            for k in ends[n]:
                kind, d, g, s = c.devices[k]
                if kind == b"nch" and k != f:
                    tree.add(k)
                    for m in (d, s):
                        if m not in nets:
                            nets.add(m)
                            todo.append(m)
        if b"vss" in nets or b"vdd" in nets:
            raise BadDeck("a pull-down reaches a supply beside its foot")
        tops = [n for n in nets if any(c.devices[k][0] == b"pch" and c.devices[k][2] == c.devices[f][2] for k in ends[n])]
        dyn = [n for n in tops if n in gated]
        if len(dyn) != 1:
            raise BadDeck("a foot with %d dynamic nets above it" % len(dyn))
        own = [k for n in nets for k in ends[n]] + [k for z, g in inverter.items() if g == dyn[0] and z[:2] != b"o_" and z[:1] == b"z" for k in ends[z]]
        cells.append((dyn[0], tree, c.devices[f][2], len(set(own))))
        roots[dyn[0]] = len(cells) - 1
    levels, sure = {}, [0]

    def level(k):
        sure[0] += 1
        if sure[0] > 100000:
            raise BadDeck("cells in a circle")
        if k not in levels:
            below = [roots[inverter[c.devices[t][2]]] for t in cells[k][1] if inverter.get(c.devices[t][2]) in roots]
            levels[k] = 1 + max([level(j) for j in below], default=0)
        return levels[k]
    for k in range(len(cells)):
        level(k)
    resets = [k for k, (kind, d, g, s) in enumerate(c.devices) if g in (b"rs", b"rsb")]
    out = {
        "inputs": sum(p[:2] == b"i_" for p in c.ports), "outputs": sum(p[:2] == b"o_" for p in c.ports), "latches": len(resets),
        "pairs": sum(len(t) - 1 for d, t, ck, n in cells), "minus": sum(sign == b"-" for net, sign in c.phases), "cells": len(cells),
        "levels": max(levels.values(), default=0), "cost": sum(n for d, t, ck, n in cells), "devices": len(c.devices)}
    for k, ck in enumerate(clocks):
        out["ck%d" % (k + 1)] = sum(x[2] == ck for x in cells)
    # the cost again: what is left without complements, latches and sinks
    sinks = out["outputs"] + out["latches"]
    complements = sum(1 for z in inverter if z[:1] == b"c" and z[1:].isdigit())
    left = len(c.devices) - 2 * complements - 9 * out["latches"] - 2 * sinks
    if left != out["cost"]:
        raise BadDeck("%d devices of cells, and %d are left without the others" % (out["cost"], left))
    return out
