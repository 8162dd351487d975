#!/usr/bin/env python3
"""Which keepers hold and which can be overpowered, and the cell without one: the largest cell of default bounds (four rows of four in
parallel) in ngspice.
usage: keeper.py [RATIO|precharge|hold ..]   RATIO is the keeper's part of a minimum pch (its length is 0.18 um over it); `precharge`
is the cell of that style, which has no keeper and precharges its inner nets; `hold` is one long evaluation of both
Each cell is run over cycles whose right outputs are known. `early` pins move while the clock is 0; `late` ones rise 0.3 ns after it
rose, as outputs of cells of earlier levels do. An `outer` cell drives an output port from its dynamic net, an `inner` one has its own
inverter alone, so its dynamic net holds less charge. Prints the cycles that were read wrong (at the cell's output), the least voltage
of the dynamic net where a 0 is right, and the greatest at all; how long after the clock (or the late pins) the slowest output rises;
the most charge that the supply gives to the dynamic net and inner nets in one evaluation, and the greatest current of the keeper; the
most charge that the clock gives when it rises; and the charge that the supply gives in a cycle, on average. Where the dynamic net should
hold, `hold` prints its voltage 1, 10 and 100 us after the clock rose."""
import random
import re
import subprocess
import sys
import tempfile
from pathlib import Path

HERE = Path(__file__).resolve().parent
HIGH, PERIOD = 1.8, 10.0
PINS = [row + str(k) for row in 'abce' for k in range(4)]


def value(bits):
    return any(all(bits[4 * row:4 * row + 4]) for row in range(4))


def cycles():
    """name, pins in order"""
    ones, none = [1] * 16, [0] * 16
    low = [0, 1, 1, 1] * 4                              # all inner nets are joined to ground, and the dynamic net to none
    top = [1, 1, 1, 0] * 4                              # all inner nets are joined to the dynamic net, and none to ground
    one = [1] * 4 + [0] * 12                            # a single row against the keeper
    loaded = [1] * 4 + [1, 1, 1, 0] * 3                 # a single row, and the inner nets of the others
    out = [('all rows', ones), ('the lower three of each row', low), ('the upper three of each row', top), ('all rows', ones),
           ('none', none), ('one row', one), ('the lower three of each row', low), ('one row, the upper three of the others', loaded)]
    draw = random.Random(1)
    return out + [('random', [int(draw.random() < 0.7) for _ in range(16)]) for _ in range(4)]


def wave(bits, late):
    """the corners of one pin's voltage over all cycles: low at the start of each cycle, then its bit"""
    rise = 5.3 if late else 1.0                         # the clock rises at 5 ns
    corners, now = ['0 0'], 0
    for cycle, bit in enumerate(bits):
        start = cycle * PERIOD
        if now:
            corners += [f'{start + 0.5:.2f}n {HIGH}', f'{start + 0.6:.2f}n 0']
        if bit:
            corners += [f'{start + rise:.2f}n 0', f'{start + rise + 0.1:.2f}n {HIGH}']
        now = bit
    return ' '.join(corners)


def sized(ratio, inner):
    """the deck of the cell with sizes: with a keeper of this ratio, or, where there is none, of style precharge"""
    deck = HERE / ('rows.sp' if ratio else 'rows_precharge.sp')
    words = [f'{0.18 / ratio:.4f}'] if ratio else []
    text = subprocess.run([HERE / 'size.sh', deck, *words], capture_output=True, text=True, check=True).stdout
    if inner:
        text = re.sub(r'^m\d+ o_f .*\n', '', text, flags=re.M)
    # what joins the supply to the dynamic net and to inner nets has a meter of its own
    text = re.sub(r'^(m\d+ (?:d0|t0_\d+) \S+) vdd ', r'\1 metered ', text, flags=re.M)
    return text.replace('.ends', 'vmeter vdd metered 0\n.ends')


def circuit(ratio, inner, clock, pins):
    """a circuit of the cell with its sources: the voltages of the clock and of each pin"""
    lines = ['* a cell of default bounds', f'.include {HERE}/models.inc', sized(ratio, inner), f'vdd vdd 0 {HIGH}', f'vck ck1 0 {clock}']
    lines += [f'v{pin} i_{pin} 0 pwl({voltages})' for pin, voltages in zip(PINS, pins)]
    lines.append('xdut vdd 0 ck1 0 vdd 0 vdd 0 vdd ' + ' '.join('i_' + pin for pin in PINS) + ' o_f rows')
    return lines + ['cload xdut.z0 0 2f']


def found(lines):
    """what ngspice measures in a circuit"""
    with tempfile.NamedTemporaryFile('w', suffix='.cir') as file:
        # threads of so small a circuit wait for each other longer than they work
        alone = ['set num_threads=1\nrun' if line == 'run' else line for line in lines]
        file.write('\n'.join(alone + ['quit', '.endc', '.end']) + '\n')
        file.flush()
        text = subprocess.run(['ngspice', '-b', file.name], capture_output=True, text=True).stdout
    return {key: float(v) for key, v in re.findall(r'^([a-z]\d+)\s*=\s*(\S+)', text, re.M)}


def bench(ratio, late, inner):
    plan = cycles()
    pins = [wave([bits[k] for _, bits in plan], late) for k in range(len(PINS))]
    lines = circuit(ratio, inner, f'pulse(0 {HIGH} 5n 0.1n 0.1n 4.8n 10n)', pins)
    lines += ['.save all @m.xdut.m1[id]', f'.tran 20p {len(plan) * PERIOD}n', '.control', 'run']
    for c, (_, bits) in enumerate(plan):
        start = c * PERIOD
        evaluation = f'from={start + 5.2}n to={start + 9.5}n'
        behind_rise = f'from={start + 5.15}n to={start + 9.7}n'
        lines.append(f'meas tran c{c} find v(xdut.z0) at={start + 9.5}n')
        lines.append(f'meas tran d{c} min v(xdut.d0) {evaluation}')
        lines.append(f'meas tran u{c} max v(xdut.d0) {evaluation}')
        lines.append(f'meas tran q{c} integ i(v.xdut.vmeter) {behind_rise}')
        if ratio:
            lines.append(f'meas tran i{c} max @m.xdut.m1[id] {behind_rise}')
        lines.append(f'meas tran k{c} integ i(vck) from={start + 4.9}n to={start + 5.3}n')
        lines.append(f'meas tran s{c} integ i(vdd) from={start}n to={start + PERIOD}n')
        if value(bits):
            lines.append(f'meas tran r{c} when v(xdut.z0)={HIGH / 2} rise=1 from={start + 5.0}n to={start + 9.5}n')
    return lines, plan


def run(ratio, late, inner):
    lines, plan = bench(ratio, late, inner)
    read, every = found(lines), range(len(plan))
    wrong = [f'{name}: {int(value(bits))} read as {read[f"c{c}"]:.2f} V' for c, (name, bits) in enumerate(plan)
             if abs(read[f'c{c}'] - HIGH * value(bits)) > HIGH / 4]
    least = min(read[f'd{c}'] for c, (_, bits) in enumerate(plan) if not value(bits))
    # the clock is at half its height at 5.05 ns, late pins are at 5.35 ns
    rise = max(read[f'r{c}'] * 1e9 - c * PERIOD - (5.35 if late else 5.05) for c in every if f'r{c}' in read)
    most, given = (max(0, *(read[f'{key}{c}'] for c in every)) for key in 'uq')
    current = f' at up to {max(read[f"i{c}"] for c in every) * 1e6:.1f} uA' if ratio else ''
    clock = max(-read[f'k{c}'] for c in every)
    supply = sum(-read[f's{c}'] for c in every[1:]) / len(every[1:])    # the first cycle begins with all nets at 0
    dip = max(0, HIGH - least)
    return (f'{len(wrong):2} of {len(plan)} cycles wrong, d0 at least {least:.2f} V at a 0 ({dip * 1000:.0f} mV below the supply) '
            f'and at most {most:.2f} V, z0 rises {rise:.2f} ns later; from the supply in evaluation {given * 1e15:.1f} fC{current}, '
            f'from the clock {clock * 1e15:.0f} fC, from the supply in a cycle {supply * 1e15:.0f} fC'
            f'{"; " if wrong else ""}{"; ".join(wrong[:2])}')


def hold(ratio):
    """an inner cell, whose inner nets are joined to ground, and the dynamic net to none: all that leaks takes from it"""
    low = dict(cycles())['the lower three of each row']
    lines = circuit(ratio, True, f'pwl(0 0 5n 0 5.1n {HIGH})', [f'0 0 5.3n 0 5.4n {bit * HIGH}' for bit in low])
    lines += ['.options gmin=1e-15', '.tran 100n 110u', '.control', 'run']
    read = found(lines + [f'meas tran h{time} find v(xdut.d0) at={time}u' for time in (1, 10, 100)])
    return ', '.join(f'd0 at {read[f"h{time}"]:.4f} V after {time} us' for time in (1, 10, 100))


def main():
    for word in sys.argv[1:] or ['0.03', '0.06', '0.12', '0.18', '0.25', '0.35', '0.5', '0.65', '0.8', '1.0', 'precharge', 'hold']:
        if word == 'hold':
            print('hold, keeper 0.35:', hold(0.35), flush=True)
            print('hold, precharge:', hold(None), flush=True)
            continue
        for inner in (False, True):
            for late in (False, True):
                which = f'{"inner" if inner else "outer"} cell, {"late" if late else "early":5} pins'
                ratio = None if word == 'precharge' else float(word)
                print(f'{word if word == "precharge" else "keeper " + word:<11} {which}: {run(ratio, late, inner)}', flush=True)


if __name__ == '__main__':
    main()
