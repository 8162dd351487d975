#!/usr/bin/env python3
"""Writes a network that is about as large as there may be, for the benchmarks of gates, signs, covers and decks:
make_logic.py KIND [PARTS]

With PARTS the network is so many times smaller.

chain    66,600 tables, each of which is 1 where the one before it is 0 and `a` is 1
wide     one table of 4,096 inputs and 96 rows that end in 0, with letters of all three kinds in turn
shared   8,192 outputs, each an And of an input of its own and the last of a chain of 40,000 gates that all of them share
passes   7,000 outputs of which each changes its sign only once the one behind it has, so that each pass changes one
latches  8,191 latches in a ring through exclusive ors
both     one table of 4,096 inputs and 96 rows without `-` in both signs: its output, and that exclusive or another input
deep     56,000 gates of two, a tree in halves
"""
import sys


def chain(tables):
    yield f".model m\n.inputs a t0\n.outputs t{tables}\n"
    for k in range(tables):
        yield f".names t{k} a t{k + 1}\n01 1\n"


def wide(inputs, rows):
    names = "".join(f" a{k}" for k in range(inputs))
    yield f".model m\n.inputs{names}\n.outputs f\n.names{names} f\n"
    for row in range(rows):
        yield "".join("01-"[(k + row) % 3] for k in range(inputs)) + " 0\n"


def shared(outputs, length):
    names = "".join(f" i{k}" for k in range(outputs))
    yield f".model m\n.inputs a b{names}\n.outputs" + "".join(f" o{k}" for k in range(outputs)) + "\n"
    yield ".names a b t0\n11 1\n"
    for k in range(length):
        yield f".names t{k} i{k % outputs} t{k + 1}\n" + ("11 1\n" if k % 2 else "1- 1\n-1 1\n")
    for k in range(outputs):
        yield f".names t{length} i{k} o{k}\n11 1\n"


def passes(count):
    def ranges():
        for first in range(0, count + 1, 3_500):
            yield range(first, min(first + 3_500, count + 1))

    sinks = [f"{w}{k}" for w in "bc" for k in range(len(list(ranges())))] + [f"o{k}" for k in range(count)]
    inputs = [f"{w}{k}" for k in range(count) for w in "uvpq"] + ["z", f"p{count}", f"q{count}"]
    yield ".model m\n.inputs " + " ".join(inputs) + "\n.outputs " + " ".join(sinks) + "\n"
    for k in range(count + 1):
        if k < count:
            yield f".names u{k} v{k} x{k}\n11 1\n"
        yield f".names p{k} q{k} r{k}\n11 1\n"
    for k, part in enumerate(ranges()):
        for w, order in (("b", part), ("c", reversed(part))):
            names = [f"r{n}" for n in order]
            yield f".names {' '.join(names)} {w}{k}\n{'0' * len(names)} 1\n"
    for k in range(count - 1):
        yield f".names x{k} x{k + 1} r{k} o{k}\n111 1\n"
    yield f".names x{count - 1} z r{count - 1} r{count} o{count - 1}\n1111 1\n"


def latches(count):
    yield ".model m\n.inputs a\n.outputs q0\n"
    for k in range(count):
        yield f".latch n{k} q{k} {k % 2}\n.names q{(k + 1) % count} a n{k}\n10 1\n01 1\n"


def both(inputs, rows):
    names = "".join(f" a{k}" for k in range(inputs))
    yield f".model m\n.inputs b{names}\n.outputs f g\n.names f b g\n10 1\n01 1\n.names{names} f\n"
    for row in range(rows):
        yield "".join("01"[(k // 2 + row) % 2] for k in range(inputs)) + " 0\n"


def deep(leaves):
    yield f".model m\n.inputs" + "".join(f" a{k}" for k in range(16)) + "\n.outputs t1\n"
    for k in range(leaves - 1, 0, -1):
        left, right = 2 * k, 2 * k + 1
        name = lambda n: f"t{n}" if n < leaves else f"a{n % 16}"
        yield f".names {name(left)} {name(right)} t{k}\n" + ("11 1\n" if k % 3 else "1- 1\n-1 1\n")


def main():
    parts = int(sys.argv[2]) if len(sys.argv) == 3 and sys.argv[2].isdecimal() and sys.argv[2] != "0" else 1
    kinds = {
        "chain": lambda: chain(66_600 // parts),
        "wide": lambda: wide(4_096, 96 // parts),
        "shared": lambda: shared(8_192 // parts, 40_000 // parts),
        "passes": lambda: passes(7_000 // parts),
        "latches": lambda: latches(8_191 // parts),
        "both": lambda: both(4_096, 96 // parts),
        "deep": lambda: deep(56_000 // parts),
    }
    if len(sys.argv) not in (2, 3) or sys.argv[1] not in kinds or len(sys.argv) == 3 and str(parts) != sys.argv[2]:
        sys.exit("usage: make_logic.py " + "|".join(kinds) + " [PARTS]")
    for piece in kinds[sys.argv[1]]():
        sys.stdout.write(piece)


main()
