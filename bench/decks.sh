#!/bin/sh
# Measures how domsyn reads decks, and the power of some. README.md says what is measured.
#
#     bench/decks.sh [DOMSYN [RUNS [KIND..]]]
#
# DOMSYN is the program, by default where `cd crates/domsyn_cli && rt run -- synth data/and2.blif` leaves it. RUNS is how
# often each deck is read, by default 3. KIND is a kind of deck of make_deck.py, or `power` for the runs of power; with none
# there are all of them. YARDSTICK may name another program with the words of domsyn, to compare with. The decks take 70 MB of
# the folder TMPDIR at a time and are removed. It needs python3 and GNU time (`time`).
#
# No command reads a deck and does nothing else. Here `sim` reads it with a stimulus that has a letter which is none: it
# reads the deck, looks at its ports, refuses the stimulus, and lets the memory go. For the power, `sim` runs over a
# stimulus without cycles.
set -eu
here=$(CDPATH='' cd -- "$(dirname -- "$0")" && pwd)
. "$here/measure.sh"
deck=$folder/deck.sp
echo x >"$folder/bad.txt"
: >"$folder/none.txt"

# write KIND BYTES: makes the deck.
write() {
    python3 "$here/make_deck.py" "$1" "$2" >"$deck"
    size=$(wc -c <"$deck")
    echo "$1, $size bytes, $(grep -c '^m' "$deck" || true) devices"
}

# read_deck KIND BYTES NAME: reads a deck as often as RUNS says, by the yardstick too.
read_deck() {
    write "$1" "$2"
    rm -f "$folder/$3" "$folder/yardstick"
    for _ in $(seq "$runs"); do
        run "$folder/$3" "$domsyn" sim "$deck" "$folder/bad.txt"
        [ -z "$yardstick" ] || run "$folder/yardstick" "$yardstick" sim "$deck" "$folder/bad.txt"
    done
    summary "$1" "$folder/$3" "$size"
    [ -z "$yardstick" ] || compare domsyn "$folder/$3" yardstick "$folder/yardstick"
}

# growth KIND: reads a deck of half the size and one of the whole size.
growth() {
    read_deck "$1" $((limit / 2)) half
    read_deck "$1" "$limit" whole
    echo "$1: whole/half, by the least processor time: $(ratio "$(least 2 "$folder/whole")" "$(least 2 "$folder/half")")"
}

# power KIND: the power of decks of three sizes.
power() {
    for bytes in 27000 54000 108000; do
        write "$1" "$bytes"
        rm -f "$folder/own" "$folder/yardstick"
        for _ in $(seq "$runs"); do
            often "$folder/own" 3 "$domsyn" sim "$deck" "$folder/none.txt"
            [ -z "$yardstick" ] || often "$folder/yardstick" 20 "$yardstick" sim "$deck" "$folder/none.txt"
        done
        summary "$1, power" "$folder/own"
        [ -z "$yardstick" ] || compare domsyn "$folder/own" yardstick "$folder/yardstick"
    done
}

machine "$runs"
[ $# -lt 2 ] || shift
[ $# -lt 1 ] || shift
[ $# -gt 0 ] || set -- near far cells pins plus comments colliding power
for kind; do
    if [ "$kind" = power ]; then
        power near
        power far
        power cells
    else
        growth "$kind"
    fi
done
