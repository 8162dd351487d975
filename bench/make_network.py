#!/usr/bin/env python3
"""Writes a BLIF network of random tables and latches, for the benchmark of simulation.

    make_network.py SEED TABLES > FILE

There are 16 inputs, TABLES tables, a latch for every 16 tables, and the last 16 tables as outputs, or all of them
if there are fewer. Each table has three different inputs among the 60 signals before it, and two rows of random
letters. The numbers come from s := (75 s + 74) mod 65537, with SEED mod 65536 first.
"""
import sys


def network(seed, count):
    state = seed % 65536

    def draw(bound):
        nonlocal state
        state = (75 * state + 74) % 65537
        return state % bound

    latches = count // 16
    signals = [f"a{k}" for k in range(16)] + [f"q{k}" for k in range(latches)]
    tables = []
    for place in range(count):
        third = min(len(signals), 60) // 3
        inputs = [signals[len(signals) - 1 - (3 * draw(third) + k)] for k in range(3)]
        end = "0" if draw(4) == 0 else "1"
        rows = ["".join("01-"[draw(3)] for _ in range(3)) for _ in range(2)]
        tables.append(f".names {' '.join(inputs)} t{place}\n" + "".join(f"{row} {end}\n" for row in rows))
        signals.append(f"t{place}")
    yield ".model gen\n.inputs " + " ".join(signals[:16]) + "\n"
    yield ".outputs " + " ".join(f"t{k}" for k in range(max(0, count - 16), count)) + "\n"
    yield from tables
    yield from (f".latch t{16 * k} q{k} 0\n" for k in range(latches))
    yield ".end\n"


def main():
    if len(sys.argv) != 3 or not all(word.isdecimal() for word in sys.argv[1:]):
        sys.exit("usage: make_network.py SEED TABLES > FILE")
    for piece in network(int(sys.argv[1]), int(sys.argv[2])):
        sys.stdout.write(piece)


main()
