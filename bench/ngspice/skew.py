#!/usr/bin/env python3
"""Clocks that overlap, and are late: the sum of two numbers of four bits, a clock for each carry, in ngspice.
usage: skew.py [DECK CLOCKS LATE.. | hold]   DECK is adder.sp (without buffers) or adder_skew.sp (with them), CLOCKS the digits of the
clocks that are late, LATE by how many nanoseconds; without words the lines of the table of docs/ELECTRICAL.md
A cycle has 10 ns. Each clock rises 1 ns behind the one before and falls 4 ns later; a late one does both so much later. The pins move
0.1 ns before the first clock rises. The outputs are read 6.9 ns behind it, before the last clock falls. Prints of each output in how
many of the sums it was wrong. `hold` prints the voltages of the dynamic nets of two outputs while the last clock stays at 1 and the
others are 0: that of one that has fallen, and of one that is kept."""
import subprocess
import sys

from keeper import HERE, HIGH, PERIOD, found

RISE, STEP, WIDTH, READ = 1.0, 1.0, 4.0, 7.9
SUMS = [(15, 1), (0, 0), (8, 7), (15, 15), (5, 10)]
LINES = [(deck, which, time) for deck, which, times in [
    ('adder.sp', '4', (0, 0.7, 0.8, 1)), ('adder_skew.sp', '4', (0, 1, 2.6, 2.7, 2.8)),
    ('adder.sp', '3', (1, 1.5, 1.6)), ('adder_skew.sp', '3', (2.8,)),
    ('adder.sp', '2', (2.1, 2.2)), ('adder_skew.sp', '2', (2.8,)),
    ('adder.sp', '234', (0.7, 0.8)), ('adder_skew.sp', '234', (2.8,))] for time in times]


def pin(name, bit, sums):
    """the voltage of a pin of the sums: its bit of the first or of the second number"""
    corners, now = ['0 0'], 0
    for cycle, pair in enumerate(sums):
        level = pair[name == 'b'] >> bit & 1
        if level != now:
            start = cycle * PERIOD + RISE - 0.15
            corners += [f'{start:.2f}n {now * HIGH}', f'{start + 0.05:.2f}n {level * HIGH}']
            now = level
    return f'v{name}{bit} i_{name}{bit} 0 ' + (f'pwl({" ".join(corners)})' if corners[1:] else '0')


def circuit(deck, clocks, sums):
    """the sized deck, its pins, and its clocks by their sources"""
    text = subprocess.run([HERE / 'size.sh', HERE / deck], capture_output=True, text=True, check=True).stdout
    lines = [f'* {deck}', f'.include {HERE}/models.inc', text, f'vdd vdd 0 {HIGH}']
    lines += [f'vck{k} ck{k} 0 {clock}' for k, clock in enumerate(clocks, 1)]
    lines += [pin(name, bit, sums) for bit in range(4) for name in 'ab']
    pins = ' '.join(f'i_a{bit} i_b{bit}' for bit in range(4))
    lines.append(f'xdut vdd 0 ck1 ck2 ck3 ck4 0 vdd 0 vdd 0 vdd {pins} o_s0 o_s1 o_s2 o_s3 o_s4 adder')
    return lines + [f'cload{bit} o_s{bit} 0 2f' for bit in range(5)]


def clocks(which, time, period):
    rises = [RISE + STEP * k + (time if str(k + 1) in which else 0) for k in range(4)]
    return [f'pulse(0 {HIGH} {rise:.3f}n 0.1n 0.1n {WIDTH - 0.1}n {period}n)' for rise in rises]


def late(deck, which, time):
    """in how many sums each output is wrong where the clocks `which` are late"""
    lines = circuit(deck, clocks(which, time, PERIOD), SUMS)
    lines += ['.save ' + ' '.join(f'v(o_s{bit})' for bit in range(5)), f'.tran 50p {len(SUMS) * PERIOD}n', '.control', 'run']
    lines += [f'meas tran s{cycle}{bit} find v(o_s{bit}) at={cycle * PERIOD + READ}n' for cycle in range(len(SUMS)) for bit in range(5)]
    read, wrong = found(lines), [0] * 5
    for cycle, pair in enumerate(SUMS):
        for bit in range(5):
            wrong[bit] += abs(read[f's{cycle}{bit}'] - HIGH * (sum(pair) >> bit & 1)) > HIGH / 4
    return ', '.join(f's{bit} {count}' for bit, count in enumerate(wrong) if count) or 'none'


def hold():
    """15 + 1: s4 is 1 by a net that has fallen, s3 is 0 by one that is kept"""
    still = clocks('', 0, 1e9)[:3] + [f'pwl(0 0 4n 0 4.1n {HIGH})']
    lines = circuit('adder_skew.sp', still, SUMS[:1]) + ['.options gmin=1e-15', '.tran 100n 110u', '.control', 'run']
    lines += [f'meas tran {key}{time} find v(xdut.{net}) at={time}u' for key, net in (('f', 'd26'), ('k', 'd25')) for time in (1, 10, 100)]
    read = found(lines)
    return '; '.join(f'after {time} us fallen {read[f"f{time}"]:.4f} V, kept {read[f"k{time}"]:.4f} V' for time in (1, 10, 100))


def main():
    words = sys.argv[1:]
    if words == ['hold']:
        print('hold:', hold())
        return
    for deck, which, time in [(words[0], words[1], float(time)) for time in words[2:]] if words else LINES:
        print(f'{deck:<13} ck{" ck".join(which)} late by {time:.2f} ns: wrong of {len(SUMS)} sums: {late(deck, which, time)}', flush=True)


main()
