#!/usr/bin/env python3
"""The Or of nine inputs as two simple cells and as one compound cell, in ngspice: how long after the clock the output rises, and what the
supply and the clock give.
usage: compound.py
A cycle has 10 ns, half precharge and half evaluation; pins move while the clock is 0. Both decks are of style precharge:
`or9_precharge.sp` is `domsyn synth or9.blif --width 8 --style precharge`, `or9_compound.sp` the same with `--compound`."""
import subprocess

from keeper import HERE, HIGH, PERIOD, found

PINS = 'abcdefghi'
# the pins that are 1, cycle by cycle
CYCLES = ['', 'a', 'i', 'abcdefghi', 'e', '', 'f', 'ei']


def wave(pin):
    corners, now = ['0 0'], 0
    for cycle, ones in enumerate(CYCLES):
        level = int(pin in ones)
        if level != now:
            start = cycle * PERIOD + 1
            corners += [f'{start}n {now * HIGH}', f'{start + 0.1:.1f}n {level * HIGH}']
            now = level
    return ' '.join(corners)


def run(deck):
    text = subprocess.run([HERE / 'size.sh', HERE / deck], capture_output=True, text=True, check=True).stdout
    lines = [f'* {deck}', f'.include {HERE}/models.inc', text, f'vdd vdd 0 {HIGH}', f'vck ck1 0 pulse(0 {HIGH} 5n 0.1n 0.1n 4.8n 10n)']
    lines += [f'v{pin} i_{pin} 0 pwl({wave(pin)})' for pin in PINS]
    lines.append('xdut vdd 0 ck1 0 vdd 0 vdd 0 vdd ' + ' '.join('i_' + pin for pin in PINS) + ' o_y or9')
    lines += ['cload o_y 0 2f', '.save all', f'.tran 10p {len(CYCLES) * PERIOD}n', '.control', 'run']
    for cycle, ones in enumerate(CYCLES):
        start = cycle * PERIOD
        lines.append(f'meas tran c{cycle} find v(o_y) at={start + 9.5}n')
        lines.append(f'meas tran s{cycle} integ i(vdd) from={start}n to={start + PERIOD}n')
        lines.append(f'meas tran k{cycle} integ i(vck) from={start + 4.9}n to={start + 5.3}n')
        if ones:
            lines.append(f'meas tran r{cycle} when v(o_y)={HIGH / 2} rise=1 from={start + 5.0}n to={start + 9.5}n')
    read = found(lines)
    wrong = [cycle for cycle, ones in enumerate(CYCLES) if abs(read[f'c{cycle}'] - HIGH * bool(ones)) > HIGH / 4]
    # the clock is at half its height at 5.05 ns
    rises = {ones: read[f'r{cycle}'] * 1e9 - cycle * PERIOD - 5.05 for cycle, ones in enumerate(CYCLES) if ones}
    supply = sum(-read[f's{cycle}'] for cycle in range(1, len(CYCLES))) / (len(CYCLES) - 1)
    clock = max(-read[f'k{cycle}'] for cycle in range(len(CYCLES)))
    return (f'{len(wrong)} of {len(CYCLES)} cycles wrong; o_y rises ' + ', '.join(f'{time:.2f} ns ({ones})' for ones, time in rises.items())
            + f' after the clock; from the clock {clock * 1e15:.0f} fC, from the supply in a cycle {supply * 1e15:.0f} fC')


def main():
    for deck in ('or9_precharge.sp', 'or9_compound.sp'):
        print(f'{deck}: {run(deck)}', flush=True)


if __name__ == '__main__':
    main()
