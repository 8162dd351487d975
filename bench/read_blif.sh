#!/bin/sh
# Measures how domsyn reads BLIF. README.md says what is measured, and has the numbers.
#
#     bench/read_blif.sh [DOMSYN [RUNS [KIND..]]]
#
# DOMSYN is the program, by default where `cd crates/domsyn_cli && rt run -- synth data/and2.blif` leaves it.
# RUNS is how often each file is read, by default 3. KIND is a kind of text of make_blif.py, or `against` for the
# comparison; with none there is the comparison, and then all of them. The files take 70 MB of the folder TMPDIR at a
# time and are removed. It needs python3 and GNU time (`time`). The comparison is with those that are there of
# `berkeley-abc`, `yosys` (Debian packages) and the program that YARDSTICK names, which has the words of domsyn.
set -eu
here=$(CDPATH='' cd -- "$(dirname -- "$0")" && pwd)
. "$here/measure.sh"
file=$folder/text.blif

# write KIND BYTES: makes the file.
write() {
    python3 "$here/make_blif.py" "$1" "$2" >"$file"
    size=$(wc -c <"$file")
}

# read_text KIND BYTES TIMES: reads a text as often as RUNS says.
read_text() {
    write "$1" "$2"
    echo "$1, $size bytes"
    : >"$3"
    for _ in $(seq "$runs"); do
        run "$3" "$domsyn" synth "$file"
    done
    summary "$1" "$3" "$size"
}

# growth KIND: reads a text of half the size and one of the whole size.
growth() {
    read_text "$1" $((limit / 2)) "$folder/half"
    read_text "$1" "$limit" "$folder/whole"
    echo "$1: whole/half, by the least processor time: $(ratio "$(least 2 "$folder/whole")" "$(least 2 "$folder/half")")"
}

# read_by NAME: reads the file once by this program.
read_by() {
    case $1 in
    domsyn) run "$folder/domsyn" "$domsyn" synth "$file" ;;
    abc) run "$folder/abc" berkeley-abc -q "read_blif $file" ;;
    yosys) run "$folder/yosys" yosys -q -p "read_blif $file" ;;
    yardstick) run "$folder/yardstick" "$yardstick" synth "$file" ;;
    esac
}

# against BYTES OTHER..: reads tables by domsyn and by other programs in turn. A last run of abc shows that it has the
# network.
against() {
    write tables "$1"
    shift
    echo "tables, $size bytes, by domsyn, $* in turn"
    rm -f "$folder/domsyn" "$folder/abc" "$folder/yosys" "$folder/yardstick"
    for _ in $(seq "$runs"); do
        for name in domsyn "$@"; do
            read_by "$name"
        done
    done
    case $* in *abc*) run /dev/null berkeley-abc -q "read_blif $file; print_stats" ;; esac
    for name in domsyn "$@"; do
        summary "tables, $name" "$folder/$name" "$size"
    done
    for name; do
        compare domsyn "$folder/domsyn" "$name" "$folder/$name"
    done
}

# comparison: reads the tables by each program that is there.
comparison() {
    others=
    for name in abc yosys yardstick; do
        if is_there "$name"; then others="$others $name"; else echo "no $name: no comparison with it"; fi
    done
    # shellcheck disable=SC2086
    [ -z "$others" ] || against "$limit" $others
}

# is_there NAME: whether there is this program to compare with.
is_there() {
    case $1 in
    abc) command -v berkeley-abc >/dev/null ;;
    yosys) command -v yosys >/dev/null ;;
    yardstick) [ -n "$yardstick" ] ;;
    esac
}

machine "$runs"
[ $# -lt 2 ] || shift
[ $# -lt 1 ] || shift
if [ $# -eq 0 ]; then
    comparison
    read_text one_more "$limit" "$folder/whole"
    set -- tables inputs alike colliding comments joined wide
fi
for kind; do
    if [ "$kind" = against ]; then comparison; else growth "$kind"; fi
done
