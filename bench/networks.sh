#!/bin/sh
# Measures `flat` and `run`. README.md says what is measured, and docs/PERFORMANCE.md has the numbers.
#
#     bench/networks.sh [DOMSYN [RUNS [KIND..]]]
#
# DOMSYN is the program, by default where `cd crates/domsyn_cli && rt run -- synth data/and2.blif` leaves it.
# RUNS is how often each command runs, by default 3. KIND is a kind of text of make_hierarchy.py, for `flat`, or `run` for
# the two runs; with none all of them. With YARDSTICK each command is run by that program in turn, and both have to write the
# same. It needs python3 and GNU time (`time`).
set -eu
here=$(CDPATH='' cd -- "$(dirname -- "$0")" && pwd)
. "$here/measure.sh"
file=$folder/text.blif

# turn NAME WORD..: runs the command by each program in turn, and compares the two.
turn() {
    name=$1
    shift
    : >"$folder/domsyn"
    : >"$folder/yardstick"
    echo "$name"
    for _ in $(seq "$runs"); do
        run "$folder/domsyn" "$domsyn" "$@"
        cp "$folder/said" "$folder/by_domsyn"
        if [ -n "$yardstick" ]; then
            run "$folder/yardstick" "$yardstick" "$@"
            cmp "$folder/said" "$folder/by_domsyn"
        fi
    done
    summary "$name, domsyn" "$folder/domsyn"
    if [ -n "$yardstick" ]; then
        summary "$name, yardstick" "$folder/yardstick"
        compare domsyn "$folder/domsyn" yardstick "$folder/yardstick"
    fi
}

# bits WIDTH CYCLES: a stimulus of random bits, the same in each run.
bits() {
    python3 -c "import random, sys
width, cycles = map(int, sys.argv[1:])
random.seed(width)
for _ in range(cycles): print(''.join(random.choice('01') for _ in range(width)))" "$1" "$2"
}

# runs_of_networks: a large network over some cycles, and an inverter over many.
runs_of_networks() {
    python3 "$here/make_network.py" 7 30000 >"$file"
    bits 16 1000 >"$folder/stim"
    turn "run, 30,000 tables over 1,000 cycles" run "$file" "$folder/stim"
    printf '.model i\n.inputs a\n.outputs f\n.names a f\n0 1\n.end\n' >"$file"
    bits 1 1000000 >"$folder/stim"
    turn "run, an inverter over 1,000,000 cycles" run "$file" "$folder/stim"
}

machine "$runs"
[ $# -lt 2 ] || shift
[ $# -lt 1 ] || shift
if [ $# -eq 0 ]; then
    set -- chain_models nested_models unbound_outputs doubling tables_last_first table_loop inputs signals run
fi
for kind; do
    if [ "$kind" = run ]; then
        runs_of_networks
    else
        python3 "$here/make_hierarchy.py" "$kind" >"$file"
        turn "flat, $kind, $(wc -c <"$file") bytes" flat "$file"
    fi
done
