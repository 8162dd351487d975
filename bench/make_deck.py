#!/usr/bin/env python3
"""Writes decks for the benchmarks of reading and simulating them.

    make_deck.py KIND BYTES > FILE

writes a deck of at most BYTES bytes of this kind, as many cards, cells or ports as fit. The kinds are:

    near      a chain of inverters, in order: each is gated by the net of the one before it
    far       the same chain with its inverters in another order, so that gates are far from their nets
    cells     domino cells of 9 devices, as `synth` writes them, on one clock. Each reads two nets: the output of the
              cell before it, or a pin, and that of a cell further back, or a pin. There are 16 pins, and the
              last 16 cells drive the outputs; there are no fewer than these, whatever BYTES is
    pins      pins and no device, at most as many ports as a deck may have, and then a comment
    called    the cells of `cells` as subcircuits: a thousand of them, alike but for their names, and calls of each in turn
    levels    calls of a subcircuit that calls one that calls one, 60 deep, with 4 devices at each level: 240 devices a call
    plus      the chain `near` with each word of a card on a line of its own that begins with `+`
    comments  one half short comments, the other half one long comment
    colliding inverters whose nets have different names with the same fast hash, then a comment

All of them are decks, they come to rest, and `sim` takes them.
"""
import itertools
import sys

sys.dont_write_bytecode = True
from make_blif import collisions  # noqa: E402

PORTS = "vdd vss ck1 lm lmb ls lsb rs rsb"
MOST_PORTS = 1_048_576
PINS = 16
OUTS = 16
STRIDE = 7_368_787
CELLS = 1_000
LEVELS = 60


def head(name, pins=("i_0",), outs=()):
    """The cards before the devices, at most eight ports on a line."""
    yield f"* domsyn deck 1\n.subckt {name} {PORTS}\n"
    for ports in (pins, outs):
        for first in range(0, len(ports), 8):
            yield "+ " + " ".join(ports[first:first + 8]) + "\n"


def fits(pieces, size, last):
    """As many of the pieces as fit, with what comes behind them."""
    left = size - len(last)
    for piece in pieces:
        if len(piece) > left:
            break
        left -= len(piece)
        yield piece
    yield last


def inverter(place, gate, out):
    return f"m{2 * place} {out} {gate} vdd vdd pch\nm{2 * place + 1} {out} {gate} vss vss nch\n"


def link(place):
    """A net of the chain: behind so many inverters."""
    return f"n{place}" if place else "i_0"


def chain(name, order):
    yield from head(name)
    yield from (inverter(k, link(place), link(place + 1)) for k, place in enumerate(order))


def near(size):
    return fits(chain("near", itertools.count()), size, ".ends near\n")


def far(size):
    # As many inverters as `near` has, in steps of a number that has no part in common with theirs.
    count = sum(piece.startswith("m") for piece in near(size))
    step = next(s for s in itertools.count(STRIDE) if not common_part(s, count))
    return fits(chain("far", (k * step % count for k in range(count))), size, ".ends far\n")


def common_part(a, b):
    """Whether a number above 1 divides both."""
    while b:
        a, b = b, a % b
    return a > 1


def cell(place, drives=None):
    """A domino cell with an inverter behind it, which may drive an output."""
    far_back = place - 1 - place * 31 % 97
    gates = [f"z{back}" if back >= 0 else f"i_{(place + k) % PINS}" for k, back in enumerate((place - 1, far_back))]
    if place % 5 == 0:
        gates[0] = f"i_{place % PINS}"
    own = [("d", "ck1", "vdd", "pch"), ("d", "z", "vdd", "pkeep"), ("d", gates[0], "t", "nch"),
           ("t", gates[1], "f", "nch"), ("f", "ck1", "vss", "nch"), ("z", "d", "vdd", "pch"), ("z", "d", "vss", "nch"),
           ("o", "d", "vdd", "pch"), ("o", "d", "vss", "nch")]
    nets = {"d": f"d{place}", "z": f"z{place}", "t": f"t{place}_0", "f": f"f{place}", "o": drives or f"x{place}"}
    cards = []
    for k, (drain, gate, source, model) in enumerate(own):
        bulk = "vss" if model == "nch" else "vdd"
        words = (nets.get(drain, drain), nets.get(gate, gate), nets.get(source, source))
        cards.append(f"m{9 * place + k} {' '.join(words)} {bulk} {model}\n")
    return "".join(cards)


def cells(size):
    pins = [f"i_{k}" for k in range(PINS)]
    outs = [f"o_{k}" for k in range(OUTS)]
    top = "".join(head("cells", pins, outs))
    last = ".ends cells\n"
    room = size - len(top) - len(last)
    count = 0
    while room >= len(cell(count)):
        room -= len(cell(count))
        count += 1
    count = max(count, OUTS)
    yield top
    yield from (cell(k, outs[k - count] if k >= count - OUTS else None) for k in range(count))
    yield last


def called(size):
    pins = [f"i_{k}" for k in range(PINS)]
    outs = [f"o_{k}" for k in range(OUTS)]
    subcircuits = "".join(
        f".subckt c{k} vdd vss ck1 a b z o\n"
        "m0 d ck1 vdd vdd pch\nm1 d z vdd vdd pkeep\nm2 d a t vss nch\nm3 t b f vss nch\nm4 f ck1 vss vss nch\n"
        f"m5 z d vdd vdd pch\nm6 z d vss vss nch\nm7 o d vdd vdd pch\nm8 o d vss vss nch\n.ends c{k}\n"
        for k in range(CELLS))
    top = subcircuits + "".join(head("called", pins, outs))
    last = ".ends called\n"
    room = size - len(top) - len(last)
    count = 0
    while room >= len(call(count)):
        room -= len(call(count))
        count += 1
    count = max(count, OUTS)
    yield top
    yield from (call(k, outs[k - count] if k >= count - OUTS else None) for k in range(count))
    yield last


def call(place, drives=None):
    """A call of one of the subcircuits, which reads what the cell of this place reads."""
    far_back = place - 1 - place * 31 % 97
    gates = [f"z{back}" if back >= 0 else f"i_{(place + k) % PINS}" for k, back in enumerate((place - 1, far_back))]
    return f"x{place} vdd vss ck1 {gates[0]} {gates[1]} z{place} {drives or f'o{place}'} c{place % CELLS}\n"


def levels(size):
    for k in reversed(range(LEVELS)):
        yield f".subckt s{k} vdd vss a z\n" + inverter(0, "a", "n") + inverter(1, "n", "z")
        yield f"x vdd vss n m s{k + 1}\n.ends s{k}\n" if k + 1 < LEVELS else f".ends s{k}\n"
    calls = (f"x{k} vdd vss {link(k)} {link(k + 1)} s0\n" for k in itertools.count())
    yield from fits(itertools.chain(head("levels"), calls), size, ".ends levels\n")


def padded(pieces, size):
    """The pieces, and a comment that fills the rest."""
    for piece in pieces:
        size -= len(piece)
        yield piece
    if size >= 2:
        yield "*" * (size - 1) + "\n"


def pins(size):
    last = ".ends pins\n"
    most = MOST_PORTS - len(PORTS.split())
    lines = ("+ " + " ".join(f"i_{k}" for k in range(first, min(first + 8, most))) + "\n" for first in range(0, most, 8))
    return padded(fits(itertools.chain(head("pins", ()), lines), size, last), size)


def plus(size):
    def broken(piece):
        return "".join(line.replace(" ", "\n+") + "\n" for line in piece.splitlines())

    pieces = chain("plus", itertools.count())
    return fits((broken(piece) if piece.startswith("m") else piece for piece in pieces), size, ".ends plus\n")


def comments(size):
    top = "".join(head("comments"))
    last = ".ends comments\n"
    short = "*\n" * (size // 4)
    return padded([top, short, last], size)


def colliding(size):
    devices = (inverter(place, "i_0", name) for place, name in enumerate(collisions(size)))
    return padded([*head("colliding"), *devices, ".ends colliding\n"], size)


KINDS = [near, far, cells, called, levels, pins, plus, comments, colliding]


def main():
    kinds = {kind.__name__: kind for kind in KINDS}
    if len(sys.argv) != 3 or sys.argv[1] not in kinds or not sys.argv[2].isdecimal():
        sys.exit("usage: make_deck.py " + "|".join(kinds) + " BYTES > FILE")
    for piece in kinds[sys.argv[1]](int(sys.argv[2])):
        sys.stdout.write(piece)


main()
