#!/bin/sh
# Takes real designs through domsyn, and has other programs judge what comes out. docs/DESIGNS.md says what is done, and has a
# table that it printed.
#
#     bench/designs.sh [DOMSYN [CYCLES [DESIGN..]]]
#
# DOMSYN is the program, by default where `cd crates/domsyn_cli && rt run -- synth data/and2.blif` leaves it. CYCLES is how
# many cycles of random bits each design runs, by default 100; decks of more than 5,000 devices run fewer. DESIGN is a file of
# bench/designs without its ending; with none there are all of them. STYLE may name the style of the cells, by default `keeper`, and
# METHOD a further option of `synth`, such as `--compound`. With WAYS set each design is made in six ways at the default bounds, judged, and
# has a line of the second table. It needs yosys, berkeley-abc, iverilog, ngspice, python3 and GNU time, with WAYS netgen-lvs too. Each
# design has a line of the table; what isn't as it should be has a line on standard error, and then the status is 1.
set -eu
here=$(CDPATH='' cd -- "$(dirname -- "$0")" && pwd)
. "$here/measure.sh"
need yosys
need berkeley-abc
need iverilog
need ngspice
cycles=${2:-100}
style=${STYLE:-keeper}
method=${METHOD:-}
bad=0
# What runs in ngspice: decks of at most so many devices.
small=230
steps='proc; memory; opt; async2sync; dffunmap; techmap; opt -nodffe -nosdff; abc -g AND,OR,XOR; opt_clean -purge'

texts() {
    python3 "$here/design_texts.py" "$@"
}

# fault WORD..: tells what isn't as it should be.
fault() {
    echo "$design: $*" >&2
    bad=1
}

# proved WAY FILE FILE: ABC proves that two files do the same, within a minute of processor time.
proved() {
    # shellcheck disable=SC3045
    (ulimit -t 60; exec berkeley-abc -q "$1 $2 $3") >"$folder/abc_said" 2>&1 || true
    grep -q 'Networks are equivalent' "$folder/abc_said"
}

# equal SOURCE OTHER: ABC proves that OTHER does what SOURCE does. With latches either by `dsec` or, where that takes too long, by
# `cec` of the networks between the latches, which are taken in their order, with their start values.
equal() {
    texts with_inputs "$1" "$2" >"$folder/other.blif"
    if proved "$way" "$1" "$folder/other.blif"; then return; fi
    if [ "$way" = dsec ]; then
        texts cut "$1" >"$folder/cut_one.blif"
        texts cut "$folder/other.blif" >"$folder/cut_two.blif"
        if proved cec "$folder/cut_one.blif" "$folder/cut_two.blif"; then cuts=$((cuts + 1)) && return; fi
    fi
    fault "$way: $(grep -v '^$' "$folder/abc_said" | tail -1)"
    return 1
}

# flat_writing: the design as yosys writes it flat.
flat_writing() {
    read="read_verilog $source; hierarchy -check -top $design"
    yosys -q -p "$read; flatten; check -assert; $steps; write_blif -noalias $folder/yosys.blif"
}

# writings: the same, as yosys writes its modules, and as ABC writes it, one name a line.
writings() {
    flat_writing
    berkeley-abc -q "read_blif $folder/yosys.blif; strash; dch; if -K 6; sop; write_blif $folder/with_clock.blif" >/dev/null 2>&1
    texts without_clock "$folder/with_clock.blif" >"$folder/abc.blif"
    echo yosys
    if [ "$(grep -c '^module' "$source")" -gt 1 ]; then
        yosys -q -p "$read; check -assert; $steps; write_blif -noalias $folder/modules.blif"
        echo modules
    fi
    echo abc
}

# flats: `flat` of each writing is equal to it, and that of the modules to the first writing: ABC takes a loop of modules for one of
# tables, even where a latch is in it.
flats() {
    flat_word=
    for writing in $(writings); do
        of=$writing
        [ "$writing" != modules ] || of=yosys
        if ! "$domsyn" flat "$folder/$writing.blif" >"$folder/$writing.flat" 2>"$folder/said"; then
            fault "flat, $writing: $(cat "$folder/said")"
        elif equal "$folder/$of.blif" "$folder/$writing.flat"; then
            flat_word="$flat_word${flat_word:+, }$writing"
        fi
    done
}

# verilog_run: the Verilog itself does over the stimulus what `run` says.
verilog_run() {
    texts testbench "$design" "$folder/yosys.flat" "$folder/stim" >"$folder/bench.v"
    iverilog -g2005 -s bench -o "$folder/bench.vvp" "$folder/bench.v" "$source"
    vvp "$folder/bench.vvp" >"$folder/lines"
    verilog_word=$(texts alike_but_x "$folder/run" "$folder/lines")
    case $verilog_word in OTHER*) fault "Verilog: $verilog_word" ;; esac
}

# deck_run OPTION..: the deck of these options by ABC, by switches in Icarus Verilog, and by `cosim`.
deck_run() {
    deck=$folder/deck.sp
    "$domsyn" synth "$folder/yosys.blif" --style "$style" ${method:+"$method"} "$@" >"$deck"
    python3 "$here/deck_to_blif.py" "$deck" >"$folder/deck.blif" || fault "deck_to_blif $*"
    ! equal "$folder/yosys.blif" "$folder/deck.blif" || equal_decks=$((equal_decks + 1))
    "$domsyn" cosim "$folder/yosys.blif" "$deck" "$folder/stim" --order seed --seed 7 >"$folder/said" ||
        fault "cosim $*: $(cat "$folder/said")"
    ! grep -q '^same' "$folder/said" || same_decks=$((same_decks + 1))
    # Icarus Verilog takes minutes to compile a model of so many devices.
    [ "$devices" -lt 20000 ] || return 0
    python3 "$here/deck_to_verilog.py" "$deck" "$folder/stim" >"$folder/deck.v"
    iverilog -o "$folder/deck.vvp" "$folder/deck.v"
    vvp "$folder/deck.vvp" >"$folder/lines"
    lines_word=$(texts alike "$folder/run" "$folder/lines")
    case $lines_word in OTHER*) fault "switches $*: $lines_word" ;; *) switch_decks=$((switch_decks + 1)) ;; esac
}

# voltages: a small deck in ngspice, over the first cycles.
voltages() {
    head -n 8 "$folder/stim" >"$folder/stim8"
    head -n 8 "$folder/run" >"$folder/run8"
    "$here/ngspice/size.sh" "$1" >"$folder/sized.sp"
    cp "$here/ngspice/models.inc" "$folder"
    texts ngspice "$1" "$folder/sized.sp" "$folder/stim8" >"$folder/deck.cir"
    (cd "$folder" && OMP_NUM_THREADS=1 ngspice -b deck.cir >ngspice_said 2>&1) || true
    texts voltages "$folder/stim8" "$folder/ngspice_said" >"$folder/lines"
    voltage_word=$(texts alike "$folder/run8" "$folder/lines")
    case $voltage_word in OTHER*) fault "ngspice: $voltage_word" ;; esac
}

# one: a design, and its line of the table.
one() {
    source=$here/designs/$design.v
    way=cec
    ! grep -q 'edge clk' "$source" || way=dsec
    cuts=0
    flats
    "$domsyn" synth "$folder/yosys.blif" --style "$style" ${method:+"$method"} >"$folder/first.sp"
    : >"$folder/times"
    often "$folder/times" 10 "$domsyn" synth "$folder/yosys.blif" --style "$style" ${method:+"$method"} >"$folder/shown"
    # shellcheck disable=SC2046
    set -- $(texts counts "$folder/yosys.blif" "$folder/yosys.flat" "$folder/first.sp")
    devices=$6 number=$cycles
    [ "$devices" -lt 5000 ] || number=$((cycles / 5))
    [ "$devices" -lt 20000 ] || number=$((cycles / 20))
    texts stimulus "$folder/yosys.flat" "$number" >"$folder/stim"
    "$domsyn" run "$folder/yosys.blif" "$folder/stim" >"$folder/run"
    verilog_run
    equal_decks=0 cuts=0 switch_decks=0 same_decks=0
    deck_run --width 2 --height 2 --phases 2
    deck_run --width 8 --height 6 --phases 4
    deck_run
    voltage_word=
    [ "$devices" -gt "$small" ] || voltages "$deck"
    what=$(sed -n '1s|^// ||p' "$source")
    echo "| \`$design\` | $what | $1 | $2 | $3 | $4 | $5 | $6 | $(awk '{ printf "%.0f", 1000 * $2 }' "$folder/times") |" \
        "$way: $flat_word | $verilog_word | $equal_decks$([ "$cuts" -eq 0 ] || echo ", $cuts cut") |" \
        "$switch_decks | $same_decks | ${voltage_word:--} |"
}

# audited: `audit` says yes of a deck with keepers, as it is and shuffled, and counts its cells.
audited() {
    texts shuffled "$deck" >"$folder/shuffled.sp"
    for one in "$deck" "$folder/shuffled.sp"; do
        "$domsyn" audit "$one" >"$folder/said" || true
        grep -q "^yes cells ${figures%%,*} " "$folder/said" || fault "audit $way_name: $(cat "$folder/said")"
    done
}

# same_text: the deck by cells has the devices of the plain one, by its calls, by netgen and by all events of its trace.
same_text() {
    [ "$(texts same_devices "$folder/keeper.sp" "$deck")" = same ] || fault "devices of $way_name"
    name=$(sed -n 's/^\.subckt \([^ ]*\) vdd vss ck1 .*/\1/p' "$deck" | tail -1)
    echo "permute default" >"$folder/setup.tcl"
    (cd "$folder" && netgen-lvs -batch lvs "$deck $name" "keeper.sp $name" setup.tcl comp.out >netgen_said 2>&1) || true
    grep -q '^Result: Circuits match uniquely' "$folder/netgen_said" || fault "netgen: $(grep '^Result' "$folder/netgen_said")"
    head -n 5 "$folder/stim" >"$folder/stim5"
    "$domsyn" sim "$folder/keeper.sp" "$folder/stim5" --events >"$folder/events"
    "$domsyn" sim "$deck" "$folder/stim5" --events | cmp -s - "$folder/events" || fault "events of $way_name"
}

# one_way NAME OPTION..: the deck of these options, judged; its figures are the next column.
one_way() {
    way_name=$1 deck=$folder/$1.sp word=
    shift
    case "$*" in *--skew*) word=skew ;; esac
    if ! "$domsyn" synth "$folder/yosys.blif" "$@" >"$deck" 2>"$folder/said"; then
        grep -q 'too many sinks' "$folder/said" || fault "$way_name: $(cat "$folder/said")"
        columns="$columns - |"
        return
    fi
    figures=$(texts figures "$deck")
    case "$*" in
        *--deck*) columns="$columns $(grep -c '^\.subckt cell-' "$deck" || true), $(grep -c '^x' "$deck" || true) |" ;;
        *) columns="$columns $figures |" ;;
    esac
    "$domsyn" cosim "$folder/yosys.blif" "$deck" "$folder/stim" --order seed --seed 7 >"$folder/said" || true
    grep -q '^same' "$folder/said" || fault "cosim $way_name: $(cat "$folder/said")"
    case "$*" in *precharge*) ;; *) audited ;; esac
    case "$*" in *--deck*) same_text && return ;; esac
    python3 "$here/deck_to_blif.py" "$deck" >"$folder/deck.blif" || fault "deck_to_blif $way_name"
    equal "$folder/yosys.blif" "$folder/deck.blif" || true
    [ "$devices" -lt 20000 ] || return 0
    # shellcheck disable=SC2086
    python3 "$here/deck_to_verilog.py" "$deck" "$folder/stim" $word >"$folder/deck.v"
    iverilog -o "$folder/deck.vvp" "$folder/deck.v"
    vvp "$folder/deck.vvp" >"$folder/lines"
    lines_word=$(texts alike "$folder/run" "$folder/lines")
    case $lines_word in OTHER*) fault "switches $way_name: $lines_word" ;; esac
}

# six: a design in six ways, and its line of the second table.
six() {
    source=$here/designs/$design.v
    way=cec cuts=0 columns=""
    ! grep -q 'edge clk' "$source" || way=dsec
    flat_writing
    "$domsyn" flat "$folder/yosys.blif" >"$folder/yosys.flat"
    devices=$("$domsyn" report "$folder/yosys.blif" | sed -n 's/^devices //p')
    number=$cycles
    [ "$devices" -lt 5000 ] || number=$((cycles / 5))
    [ "$devices" -lt 20000 ] || number=$((cycles / 20))
    texts stimulus "$folder/yosys.flat" "$number" >"$folder/stim"
    "$domsyn" run "$folder/yosys.blif" "$folder/stim" >"$folder/run"
    one_way keeper
    one_way precharge --style precharge
    one_way compound --style precharge --compound
    one_way skew --phases 4 --skew
    one_way exact --exact
    one_way cells --deck 2
    echo "| \`$design\` |$columns"
}

[ $# -lt 2 ] || shift
[ $# -lt 1 ] || shift
if [ $# -eq 0 ]; then
    for source in "$here"/designs/*.v; do
        set -- "$@" "$(basename "$source" .v)"
    done
fi
if [ -n "${WAYS:-}" ]; then
    need netgen-lvs
    echo "| Design | \`keeper\` | \`precharge\` | \`--compound\` | \`--skew\` | \`--exact\` | \`--deck 2\` |"
    echo "|---|---|---|---|---|---|---|"
    for design; do
        six
    done
    exit $bad
fi
echo "| Design | What it is | In | Out | Latches | Tables | Cells | Devices | \`synth\`, ms |" \
    "\`flat\` of | Verilog | Equal decks | In switches | \`cosim\` | ngspice |"
echo "|---|---|---|---|---|---|---|---|---|---|---|---|---|---|---|"
for design; do
    one
done
exit $bad
