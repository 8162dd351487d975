#!/usr/bin/env python3
"""Measures every command at three sizes, each twice the one before and the last at a limit, and writes one table.

    figures.py DOMSYN YARDSTICK [RUNS [WORD..]]
    figures.py --styles DOMSYN [RUNS [WORD..]]

DOMSYN and YARDSTICK are two programs with the words of domsyn. Each command runs RUNS times (5) by each of them in turn,
and both have to end with the same status and put out the same. A line of the table has the median of the processor
time (user and system), the peak memory of one run more, their ratios, and the growth: the time of domsyn at this size by
that at half the size. With WORDs only lines that have one of them in their name. The texts take 100 MB of the folder
TMPDIR at a time. It needs python3 and GNU time (`time`). (The yardstick takes `--deck 2` and decks with calls where
DOMSYN_LATER=1.)

With --styles each command that takes a style runs by DOMSYN in both, in turn. A line of this table has the least of the
times in style precharge and in style keeper, the peak memory, what was put out, and the ratios of these.
"""
import hashlib
import os
import random
import statistics
import subprocess
import sys
import tempfile

HERE = os.path.dirname(os.path.abspath(__file__))
LIMIT = 67_108_864


def made(script, *words):
    """The text that a script of this folder writes."""
    command = [sys.executable, os.path.join(HERE, script), *map(str, words)]
    return subprocess.run(command, check=True, stdout=subprocess.PIPE).stdout


def bits(width, cycles):
    """A stimulus of random bits, the same in each run."""
    draw = random.Random(width)
    return "".join("".join(draw.choice("01") for _ in range(width)) + "\n" for _ in range(cycles)).encode()


INVERTER = b".model i\n.inputs a\n.outputs f\n.names a f\n0 1\n.end\n"


def hierarchy(kind, counts):
    return [(f"{count:,}", {"t.blif": lambda count=count: made("make_hierarchy.py", kind, count)}, ["flat", "t.blif"]) for count in counts]


def logic(command, kind, sizes, *options):
    return [
        (size, {"t.blif": lambda parts=parts: made("make_logic.py", kind, parts)}, [command, "t.blif", *options])
        for parts, size in zip((4, 2, 1), sizes)
    ]


def of_network(command, counts, cycles):
    """A deck of a random network, as the yardstick writes it, over random pins."""
    def files(count):
        return {"t.blif": lambda: made("make_network.py", 3, count), "t.sp": "synth t.blif", "t.stim": lambda: bits(16, cycles)}
    words = {"sim": ["sim", "t.sp", "t.stim"], "cosim": ["cosim", "t.blif", "t.sp", "t.stim"],
             "run": ["run", "t.blif", "t.stim"]}
    return [(f"{count:,} tables, {cycles:,} cycles", files(count), words[command]) for count in counts]


# A command, what it works on, and for each size its name, the files and the words.
CASES = [
    ("`synth`, reading (refused)", "tables of 3 inputs", [
        (f"{size >> 20} MiB", {"t.blif": lambda size=size: made("make_blif.py", "tables", size)}, ["synth", "t.blif"])
        for size in (LIMIT // 4, LIMIT // 2, LIMIT)]),
    ("`sim`, reading (refused)", "a deck of domino cells", [
        (f"{size >> 20} MiB", {"t.sp": lambda size=size: made("make_deck.py", "cells", size), "t.stim": lambda: b"x\n"},
         ["sim", "t.sp", "t.stim"])
        for size in (LIMIT // 4, LIMIT // 2, LIMIT)]),
    ("`sim`, reading (refused)", "calls of 1,000 subcircuits", [
        (f"{size >> 20} MiB", {"t.sp": lambda size=size: made("make_deck.py", "called", size), "t.stim": lambda: b"x\n"},
         ["sim", "t.sp", "t.stim"])
        for size in (LIMIT // 4, LIMIT // 2, LIMIT)]),
    ("`sim`, reading (refused)", "calls in calls, 60 levels", [
        (f"{size // 1000} kB", {"t.sp": lambda size=size: made("make_deck.py", "levels", size), "t.stim": lambda: b"x\n"},
         ["sim", "t.sp", "t.stim"])
        for size in (40_000, 80_000, 160_000)]),
    ("`flat`", "tables in a chain, last first", hierarchy("tables_last_first", (50_000, 100_000, 200_000))),
    ("`flat`", "inverters, half inside instances", hierarchy("signals", (55_500, 111_000, 222_000))),
    ("`flat`", "nested models", hierarchy("nested_models", (25_000, 50_000, 99_990))),
    ("`flat`", "a chain of models (refused)", hierarchy("chain_models", (507_500, 1_015_000, 2_030_000))),
    ("`flat`", "inputs of one model (refused)", hierarchy("inputs", (1_875_000, 3_750_000, 7_500_000))),
    ("`flat`", "unbound outputs (refused)", hierarchy("unbound_outputs", (1_000_000, 2_000_000, 4_000_000))),
    ("`run`", "random tables", of_network("run", (7_500, 15_000, 30_000), 1_000)),
    ("`run`", "an inverter", [
        (f"{count:,} cycles", {"t.blif": lambda: INVERTER, "t.stim": lambda count=count: bits(1, count)}, ["run", "t.blif", "t.stim"])
        for count in (250_000, 500_000, 1_000_000)]),
    ("`synth`", "a chain of tables", logic("synth", "chain", ("16,650", "33,300", "66,600"))),
    ("`synth`, 2 by 2", "a table of 4,096 inputs",
     logic("synth", "wide", ("24 rows", "48 rows", "96 rows"), "--width", "2", "--height", "2")),
    ("`synth`", "latches in a ring", logic("synth", "latches", ("2,047", "4,095", "8,191"))),
    ("`synth`", "outputs over one cone", logic("synth", "shared", ("2,048", "4,096", "8,192"))),
    ("`synth`", "gates, a tree in halves", logic("synth", "deep", ("14,000", "28,000", "56,000"))),
    ("`synth --deck 2`", "a chain of tables", logic("synth", "chain", ("16,650", "33,300", "66,600"), "--deck", "2")),
    ("`synth --deck 2`", "latches in a ring", logic("synth", "latches", ("2,047", "4,095", "8,191"), "--deck", "2")),
    ("`synth --deck 2`", "outputs over one cone", logic("synth", "shared", ("2,048", "4,096", "8,192"), "--deck", "2")),
    ("`report`", "a chain of tables", logic("report", "chain", ("16,650", "33,300", "66,600"))),
    ("`report`", "a table of 4,096 inputs", logic("report", "wide", ("24 rows", "48 rows", "96 rows"))),
    ("`report`", "that in both signs", logic("report", "both", ("24 rows", "48 rows", "96 rows"))),
    ("`report`", "outputs over one cone", logic("report", "shared", ("2,048", "4,096", "8,192"))),
    ("`sim`", "a random network's deck", of_network("sim", (375, 750, 1_500), 100)),
    ("`cosim`", "a random network and its deck", of_network("cosim", (375, 750, 1_500), 100)),
    ("`bench 1 N`", "a network of its own", [(f"{count:,} tables", {}, ["bench", "1", str(count)]) for count in (7_500, 15_000, 30_000)]),
]


def run(program, words, folder):
    """One run: processor time, and the status with the digest of what was put out."""
    path = os.path.join(folder, "said")
    pid = os.fork()
    if pid == 0:
        os.chdir(folder)
        said = os.open(path, os.O_WRONLY | os.O_CREAT | os.O_TRUNC)
        os.dup2(said, 1)
        os.dup2(os.open(os.devnull, os.O_WRONLY), 2)
        os.execv(program, [program, *words])
    _, status, used = os.wait4(pid, 0)
    with open(path, "rb") as said:
        answer = (os.waitstatus_to_exitcode(status), hashlib.file_digest(said, "sha256").digest())
    return used.ru_utime + used.ru_stime, answer, os.path.getsize(path)


def room(program, words, folder):
    """The peak memory of one run, in MiB. This script is larger than some runs, so a small program starts it."""
    path = os.path.join(folder, "peak")
    subprocess.run(["/usr/bin/time", "-q", "-o", path, "-f", "%M", program, *words],
                   stdout=subprocess.DEVNULL, stderr=subprocess.DEVNULL, cwd=folder)
    with open(path) as peak:
        return int(peak.read()) / 1024


def seconds(time):
    return f"{time:.3f} s" if time < 0.3 else f"{time:.2f} s"


def write(files, program, folder):
    """Writes the files of a case. Decks are made by this program."""
    for name, make in files.items():
        with open(os.path.join(folder, name), "wb") as file:
            if callable(make):
                file.write(make())
            else:
                subprocess.run([program, *make.split()], check=True, stdout=file, cwd=folder)


def measure(ways, runs, folder, are_alike):
    """Two ways, each a program with its words, in turn: the times of each, its memory, and how much it put out."""
    times, sizes = ([], []), [0, 0]
    for _ in range(runs):
        answers = []
        for which, (program, words) in enumerate(ways):
            time, answer, sizes[which] = run(program, words, folder)
            times[which].append(time)
            answers.append(answer)
        if answers[0][0] != answers[1][0] or are_alike and answers[0] != answers[1]:
            sys.exit(f"the answers differ at {ways[0][1]}")
    return times, [room(program, words, folder) for program, words in ways], sizes


def cases(chosen):
    for command, text, sizes in CASES:
        if not chosen or any(word in f"{command} {text}" for word in chosen):
            yield command, text, sizes


def programs(domsyn, yardstick, runs, chosen):
    print("| Command | Text | Size | domsyn | yardstick | time | memory | growth |")
    print("|---|---|---|---|---|---|---|---|", flush=True)
    for command, text, sizes in cases(chosen):
        before = None
        for size, files, words in sizes:
            with tempfile.TemporaryDirectory() as folder:
                write(files, yardstick, folder)
                times, rooms, _ = measure([(domsyn, words), (yardstick, words)], runs, folder, True)
            own, other = map(statistics.median, times)
            ratio = f"{own / other:.2f}" if other > 0 else "-"
            growth = f"{own / before:.1f}" if before else "-"
            print(f"| {command} | {text} | {size} | {seconds(own)}, {rooms[0]:.0f} MiB | {seconds(other)}, {rooms[1]:.0f} MiB "
                  f"| {ratio} | {rooms[0] / rooms[1]:.2f} | {growth} |", flush=True)
            before = own


def styles(domsyn, runs, chosen):
    print("| Command | Text | Size | precharge | keeper | time | memory | put out |")
    print("|---|---|---|---|---|---|---|---|", flush=True)
    for command, text, sizes in cases(chosen):
        if "refused" in command or sizes[0][2][0] not in ("synth", "report", "bench"):
            continue
        for size, files, words in sizes:
            with tempfile.TemporaryDirectory() as folder:
                write(files, domsyn, folder)
                ways = [(domsyn, [*words, "--style", style]) for style in ("precharge", "keeper")]
                times, rooms, bytes_ = measure(ways, runs, folder, False)
            own, other = map(min, times)
            print(f"| {command} | {text} | {size} | {seconds(own)}, {rooms[0]:.0f} MiB, {bytes_[0]:,} bytes "
                  f"| {seconds(other)}, {rooms[1]:.0f} MiB, {bytes_[1]:,} bytes "
                  f"| {own / other:.2f} | {rooms[0] / rooms[1]:.2f} | {bytes_[0] / bytes_[1]:.2f} |", flush=True)


def main():
    words = sys.argv[1:]
    if len(words) < 2:
        sys.exit(__doc__)
    runs = int(words[2]) if len(words) > 2 else 5
    if words[0] == "--styles":
        styles(os.path.abspath(words[1]), runs, words[3:])
    else:
        programs(os.path.abspath(words[0]), os.path.abspath(words[1]), runs, words[3:])


main()
