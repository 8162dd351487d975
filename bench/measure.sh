# shellcheck shell=sh
# What the benchmarks share. The scripts read this file after `set -eu`, with `here` for their folder.

export LC_ALL=C
# The bytes of the largest texts: as many as a file may have, or LIMIT for a short trial.
# shellcheck disable=SC2034
limit=${LIMIT:-67108864}
folder=$(mktemp -d)
trap 'rm -rf "$folder"' EXIT
trap 'exit 1' INT TERM
escape=$(printf '\033')

# need PROGRAM: ends the script where there is no such program.
need() {
    command -v "$1" >/dev/null || { echo "no program $1" >&2; exit 1; }
}

# The words of each script: the program, and how often it runs.
domsyn=${1:-$here/../crates/domsyn_cli/out/domsyn_cli}
runs=${2:-3}
# shellcheck disable=SC2034
yardstick=${YARDSTICK:-}
need "$domsyn"
need /usr/bin/time

# machine: says what the numbers were measured on.
machine() {
    echo "$(nproc) processors, $(awk '/^MemTotal/ { printf "%.0f", $2 / 1048576 }' /proc/meminfo) GiB of memory," \
        "a load of $(cut -d ' ' -f 1 /proc/loadavg), median of $1 runs"
}

# run TIMES PROGRAM WORD..: runs it once, shows how it ended and what it said, and appends a line
# 'SECONDS PROCESSOR_SECONDS KILOBYTES' to the file TIMES. What it said stays in the file `said`.
run() {
    times=$1
    shift
    status=0
    /usr/bin/time -q -o "$folder/time" -f '%e %U %S %M' "$@" >"$folder/said" 2>&1 || status=$?
    awk '{ printf "%.2f %.2f %d\n", $1, $2 + $3, $4 }' "$folder/time" | tee -a "$times" |
        awk -v status="$status" '{ printf "    %6.2f s %6.2f s %8d KB  status %d  ", $1, $2, $3, status }'
    sed "s|$folder/||g; s|$escape\[[0-9;]*m||g; q" "$folder/said" | cut -c 1-160 | grep . || echo "(no word)"
}

# often TIMES COUNT PROGRAM WORD..: the same of so many runs in turn, for programs that are quick. The line has
# the seconds of one of them.
often() {
    to=$1
    count=$2
    shift 2
    : >"$folder/all"
    # shellcheck disable=SC2016
    run "$folder/all" sh -c 'n=$1; shift; while [ "$n" -gt 0 ]; do "$@" || exit; n=$((n - 1)); done' sh "$count" "$@"
    awk -v n="$count" '{ printf "%.4f %.4f %d\n", $1 / n, $2 / n, $3 }' "$folder/all" >>"$to"
}

# median COLUMN TIMES
median() {
    sort -n -k "$1,$1" "$2" | awk -v c="$1" '{ v[NR] = $c } END { print v[int((NR + 1) / 2)] }'
}

# least COLUMN TIMES
least() {
    sort -n -k "$1,$1" "$2" | awk -v c="$1" 'NR == 1 { print $c }'
}

# ratio A B
ratio() {
    awk -v a="$1" -v b="$2" 'BEGIN { if (b > 0) printf "%.2f\n", a / b; else print "-" }'
}

# compare NAME TIMES NAME TIMES: the ratios of the medians of the one to those of the other.
compare() {
    echo "$1/$3: time $(ratio "$(median 1 "$2")" "$(median 1 "$4")")," \
        "processor time $(ratio "$(median 2 "$2")" "$(median 2 "$4")")," \
        "memory $(ratio "$(median 3 "$2")" "$(median 3 "$4")")"
}

# summary NAME TIMES [BYTES]: the medians, and the memory by the size of a text where one is given.
summary() {
    text=
    [ $# -lt 3 ] || text=", memory/text $(ratio "$(($(median 3 "$2") * 1024))" "$3")"
    echo "$1: $(median 1 "$2") s, $(median 2 "$2") s of processor time, $(median 3 "$2") KB$text"
}
