#!/bin/sh
# Measures how fast domsyn simulates a deck, and compares what it says. README.md says what is measured.
#
#     bench/sim.sh [DOMSYN [RUNS [CYCLES [SEED TABLES]]]]
#
# DOMSYN is the program, by default where `cd crates/domsyn_cli && rt run -- synth data/and2.blif` leaves it. Each program
# runs RUNS times, by default 3, over CYCLES cycles of random pins, by default 100. YARDSTICK may name another program with
# the words of domsyn that builds every network. Then the deck is that of the network of make_network.py for SEED and
# TABLES, by default 3 and 85, of about 1,000 devices with latches; else it is a deck of domino cells of make_deck.py, which
# has no latches. The comparison is with YARDSTICK and with Icarus Verilog, if they are there. It needs python3 and GNU time.
set -eu
here=$(CDPATH='' cd -- "$(dirname -- "$0")" && pwd)
. "$here/measure.sh"
cycles=${3:-100}
seed=${4:-3}
tables=${5:-85}
deck=$folder/deck.sp
stim=$folder/stim.txt

# write_deck: makes the deck and the stimulus.
write_deck() {
    if [ -n "$yardstick" ]; then
        python3 "$here/make_network.py" "$seed" "$tables" >"$folder/network.blif"
        "$yardstick" synth "$folder/network.blif" >"$deck"
    else
        python3 "$here/make_deck.py" cells 26000 >"$deck"
    fi
    pins=$(grep '^+ i_' "$deck" | tr ' ' '\n' | grep -c '^i_')
    awk -v pins="$pins" -v cycles="$cycles" 'BEGIN {
        s = 1
        for (c = 0; c < cycles; c++) {
            line = ""
            for (p = 0; p < pins; p++) { s = (75 * s + 74) % 65537; line = line s % 2 }
            print line
        }
    }' >"$stim"
    echo "$(grep -c '^m' "$deck") devices, $pins pins, $(grep -c ' rs vss\| rsb vdd' "$deck" || true) latches, $cycles cycles"
}

# same_text: both programs write the same text of every event in three orders.
same_text() {
    for order in first last 'seed --seed 7'; do
        # shellcheck disable=SC2086
        "$domsyn" sim "$deck" "$stim" --order $order --events >"$folder/own"
        # shellcheck disable=SC2086
        "$yardstick" sim "$deck" "$stim" --order $order --events >"$folder/other"
        if cmp -s "$folder/own" "$folder/other"; then
            echo "--order $order --events: the same text, $(wc -l <"$folder/own") lines"
        else
            echo "--order $order --events: another text: $(cmp "$folder/own" "$folder/other" 2>&1)"
        fi
    done
}

# same_outputs NAME FILE: the lines of cycles are those of the trace, but for the counts of events.
same_outputs() {
    sed -n '/^cycle/s/ events.*//p' "$folder/trace" >"$folder/wanted"
    sed 'y/xz/XX/' "$2" >"$folder/found"
    if cmp -s "$folder/wanted" "$folder/found"; then
        echo "$1: the same outputs in $(wc -l <"$folder/found") cycles"
    else
        echo "$1: other outputs: $(diff "$folder/wanted" "$folder/found" | grep -c '^>') of $cycles cycles"
    fi
}

# compile NAME [lean]: makes the model of the deck for Icarus Verilog.
compile() {
    python3 "$here/deck_to_verilog.py" "$deck" "$stim" ${2:+"$2"} >"$folder/$1.v"
    run "$folder/$1-compile" iverilog -o "$folder/$1.vvp" "$folder/$1.v"
}

# time_all: runs all programs in turn.
time_all() {
    for _ in $(seq "$runs"); do
        run "$folder/domsyn" "$domsyn" sim "$deck" "$stim"
        cp "$folder/said" "$folder/trace"
        [ -z "$yardstick" ] || often "$folder/yardstick" 20 "$yardstick" sim "$deck" "$stim"
        for name in $models; do
            often "$folder/$name" 5 vvp "$folder/$name.vvp"
        done
    done
}

machine "$runs"
write_deck
[ -z "$yardstick" ] || same_text
models=
if command -v iverilog >/dev/null; then
    models='icarus icarus-lean'
    compile icarus
    compile icarus-lean lean
fi
time_all
for name in $models; do
    vvp "$folder/$name.vvp" >"$folder/lines"
    same_outputs "$name" "$folder/lines"
done
others="${yardstick:+yardstick} $models"
for name in domsyn $others; do
    summary "$name" "$folder/$name"
done
for name in $others; do
    compare domsyn "$folder/domsyn" "$name" "$folder/$name"
done
for name in $models; do
    summary "$name, compiling" "$folder/$name-compile"
done
