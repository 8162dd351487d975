#!/usr/bin/env python3
"""Runs domsyn where one request for memory is refused, another one in each run: every request of each command on small files.

    bench/refused_memory.py [DOMSYN [STEP]]

DOMSYN is the program, by default where `cd crates/domsyn_cli && rt run -- synth data/and2.blif` leaves it; it asks the C library for
memory, by `malloc` and `realloc`. A small library that is loaded before that one (`LD_PRELOAD`) counts the requests and answers one with
none. The requests are those of the numbers from 1 on, in steps of STEP, by default 1. It needs a C compiler, `cc`.

A run is right if it ends with status 5, its line and nothing put out, or with what the command answers where nothing is refused. The
words of the command line take memory too: where the system doesn't give them, the status is 7, and nothing is written.
"""
import os
import pathlib
import subprocess
import sys
import tempfile

ROOT = pathlib.Path(__file__).resolve().parent.parent
LIBRARY = r"""
#define _GNU_SOURCE
#include <dlfcn.h>
#include <stdio.h>
#include <stdlib.h>
static long count, refused;
static void *(*next_malloc)(size_t), *(*next_realloc)(void *, size_t);
__attribute__((constructor)) static void start(void) {
    next_malloc = dlsym(RTLD_NEXT, "malloc");
    next_realloc = dlsym(RTLD_NEXT, "realloc");
    refused = atol(getenv("REFUSED"));
    count = 0;
}
__attribute__((destructor)) static void end(void) {
    FILE *file = refused ? NULL : fopen(getenv("REQUESTS"), "w");
    if (file) fprintf(file, "%ld", count), fclose(file);
}
void *malloc(size_t size) {
    if (!next_malloc) next_malloc = dlsym(RTLD_NEXT, "malloc");
    return ++count == refused ? NULL : next_malloc(size);
}
void *realloc(void *old, size_t size) {
    if (!next_realloc) next_realloc = dlsym(RTLD_NEXT, "realloc");
    return ++count == refused ? NULL : next_realloc(old, size);
}
"""
FILES = {
    "and2.blif": ".model and2\n.inputs a b\n.outputs f\n.names a b f\n11 1\n.end\n",
    "or6.blif": ".model or6\n.inputs a b c d e f\n.outputs y\n.names a b c d e f y\n000000 0\n.end\n",
    "cnt.blif": ".model cnt\n.outputs q0 q1\n.latch n0 q0 1\n.latch n1 q1\n.names q0 n0\n0 1\n.names q0 q1 n1\n10 1\n01 1\n.end\n",
    "pairs.blif": ".model top\n.inputs a b\n.outputs f g\n.subckt pair x=a y=b both=f\n.subckt pair x=a y=f both=g any=h\n.end\n"
    ".model pair\n.inputs x y\n.outputs both any\n.names x y both\n11 1\n.names x y any\n1- 1\n-1 1\n.end\n",
    "two.txt": "11\n10\n",
    "four.txt": "-\n" * 4,
}
DECKS = {"and2.sp": "synth and2.blif", "cnt.sp": "synth cnt.blif", "pairs.sp": "synth pairs.blif --deck 2", "skew.sp": "synth and2.blif --phases 2 --skew"}
COMMANDS = (
    *DECKS.values(),
    "synth and2.blif --exact",
    "synth or6.blif --style precharge --compound",
    "flat pairs.blif",
    "run cnt.blif four.txt",
    "sim and2.sp two.txt --probe d0",
    "sim pairs.sp two.txt --events",
    "sim skew.sp two.txt --skew",
    "cosim cnt.blif cnt.sp four.txt",
    "report and2.blif --style precharge",
    "bench 1 1",
    "audit pairs.sp",
    "synth two.txt",
    "synth missing.blif",
)
MEMORY = (5, b"", b"domsyn: out of memory\n")
NO_WORDS = (7, b"", b"")


def main():
    words = sys.argv[1:]
    domsyn = pathlib.Path(words[0] if words else ROOT / "crates/domsyn_cli/out/domsyn_cli").resolve()
    step = int(words[1]) if len(words) > 1 else 1
    runs = wrong = 0
    with tempfile.TemporaryDirectory() as name:
        folder = pathlib.Path(name)
        (folder / "refuse.c").write_text(LIBRARY)
        subprocess.run(["cc", "-O1", "-shared", "-fPIC", "-o", "refuse.so", "refuse.c", "-ldl"], cwd=folder, check=True)
        for file, text in FILES.items():
            (folder / file).write_text(text)
        preload = {**os.environ, "LD_PRELOAD": str(folder / "refuse.so"), "REQUESTS": str(folder / "requests")}

        def run(command, refused=0):
            """The status of a run, what it put out and its line, where the request of this number is refused."""
            done = subprocess.run([domsyn, *command.split()], cwd=folder, capture_output=True, check=False, env={**preload, "REFUSED": str(refused)})
            return done.returncode, done.stdout, done.stderr

        for file, command in DECKS.items():
            (folder / file).write_bytes(run(command)[1])
        for command in COMMANDS:
            answer = run(command)
            last = int((folder / "requests").read_text())
            found = [run(command, number) for number in range(1, last + 1, step)]
            runs += len(found)
            for place, one in enumerate(found):
                if one not in (MEMORY, NO_WORDS, answer):
                    wrong += 1
                    print(f"{command}: request {1 + place * step}: status {one[0]}, {len(one[1])} bytes, {one[2]}")
            print(f"{command}: answers {answer[0]}, {last} requests; {found.count(MEMORY)} runs answered 5, {found.count(NO_WORDS)} answered 7,"
                  f" {found.count(answer)} the same", flush=True)
    print(f"{runs} runs, {wrong} wrong")
    return 1 if wrong else 0


if __name__ == "__main__":
    sys.exit(main())
