#!/usr/bin/env bash
# Prints what an item costs in the archive, in the second program and in sigrok, by instructions of x86-64 and by times, and
# whether the budgets are kept. A budget in instructions that is not kept ends this with 1; a time fails nothing, since another
# program on the machine can spoil it.
#
#   bench/run.sh [sigrok | instructions | times]
#
# A part of it: sigrok's instructions, which needs no archive; those of the archive and of the second program, with the verdicts
# on both and on what the part before has counted; the times, for which the machine should do nothing else.
set -u
cd "$(dirname "$0")/.." || exit 2
. tools/machine.sh
. bench/sigrok.sh
archive=target/staticlib/libdoor.a
out=$(pwd)/target/bench
mkdir -p "$out"
densities="2 4 20 100"
strict="-std=c99 -O2 -Wall -Wextra -Wpedantic -Werror -Itests -Itests/second"
door="-Iinclude -DDOOR_PREFIX=wherryoar_ -DDOOR_HEADER=\"wherryoar.h\""

build_bench() {
    build_archive && $CC_ARCHIVE $strict $door -o "$out/bench" bench/bench.c bench/capture.c tests/second/second.c "$archive"
}

# Lines 'samples-per-clock items run second-run sample second-sample items-of-the-wire draw second-draw' as a table of run and
# sample.
table() { # table WHAT
    awk -v what="$1" '
    BEGIN {
        printf "%s per item\n", what
        printf "%9s %8s | %13s %10s %5s | %16s %13s %5s | %s\n", "samples", "items", "wherryoar_run", "second_run", "ratio",
            "wherryoar_sample", "second_sample", "ratio", "wherryoar_sample"
        printf "%9s %8s | %13s %10s %5s | %16s %13s %5s | %s\n", "per clock", "", "", "", "", "", "", "", "to wherryoar_run"
    }
    {
        printf "%9d %8d | %13.1f %10.1f %5.2f | %16.1f %13.1f %5.2f | %16.2f\n",
            $1, $2, $3, $4, $3 / $4, $5, $6, $5 / $6, $5 / $3
    }
    END { exit NR == 0 }'
}

# The budgets of run and sample, from the lines of a table; fails where one is not kept. Instructions are what is judged, since
# no other work on the machine changes them; of times the verdict is only printed. A step of run is an item at 2 samples per
# clock: there every sample is an edge, while at more a run passes over many at once.
budgets() {
    awk '
    $3 / $4 > run { run = $3 / $4 }
    $1 == 2 { sample = $5 / $3 }
    END {
        printf "run at most 1.50 times second_run: %.2f, %s; sample at most 20 times a step of run: %.2f, %s\n",
            run, run <= 1.5 ? "kept" : "NOT KEPT", sample, sample <= 20 ? "kept" : "NOT KEPT"
        exit NR == 0 || run > 1.5 || sample > 20
    }'
}

# The same lines as a table of draw, which reads the wire of the capture and calls the handler by itself.
draw_table() { # draw_table WHAT
    awk -v what="$1" '
    BEGIN {
        printf "%s per item of the wire, drawn\n", what
        printf "%9s %8s | %14s %11s %5s | %13s %s\n", "samples", "items", "wherryoar_draw", "second_draw", "ratio",
            "wherryoar_run", "wherryoar_draw"
        printf "%9s %8s | %14s %11s %5s | %13s %s\n", "per clock", "", "", "", "", "", "to wherryoar_run"
    }
    { printf "%9d %8d | %14.1f %11.1f %5.2f | %13.1f %16.2f\n", $1, $7, $8, $9, $8 / $9, $3, $8 / $3 }
    END { exit NR == 0 }'
}

# The budgets of draw, from the same lines; fails where one is not kept. That of 100 samples per clock is one of instructions.
draw_budgets() { # draw_budgets instructions|nanoseconds
    awk -v what="$1" '
    $1 == 2 { edges = $8 / $3; lines++ }
    $1 == 100 { still = $8; lines++ }
    END {
        printf "draw at most 3.00 times run at 2 samples per clock: %.2f, %s", edges, edges <= 3 ? "kept" : "NOT KEPT"
        if (what == "instructions")
            printf "; at most 20 instructions an item at 100: %.1f, %s", still, still <= 20 ? "kept" : "NOT KEPT"
        printf "\n"
        exit lines != 2 || edges > 3 || (what == "instructions" && still > 20)
    }'
}

# Lines 'samples-per-clock moving sample second-sample still sample second-sample' as a table.
effects_table() { # effects_table WHAT
    awk -v what="$1" '
    BEGIN {
        printf "%s per sample, by what it does\n", what
        printf "%9s | %7s %16s %13s %5s | %7s %16s %13s %5s\n", "samples",
            "moving", "wherryoar_sample", "second_sample", "ratio", "still", "wherryoar_sample", "second_sample", "ratio"
        printf "%9s | %7s %16s %13s %5s | %7s\n", "per clock", "samples", "", "", "", "samples"
    }
    { printf "%9d | %7d %16.1f %13.1f %5.2f | %7d %16.1f %13.1f %5.2f\n", $1, $2, $3, $4, $3 / $4, $5, $6, $7, $6 / $7 }
    END { exit NR == 0 }'
}

# The budgets of a sample by what it does, from the lines of that table; fails where one is not kept.
effects_budgets() {
    awk '
    $3 / $4 > moving { moving = $3 / $4 }
    $6 / $7 > still { still = $6 / $7 }
    END {
        printf "a sample that moves something at most 2.00 times second_sample: %.2f, %s; ",
            moving, moving <= 2 ? "kept" : "NOT KEPT"
        printf "one on the short way at most 1.50 times: %.2f, %s\n", still, still <= 1.5 ? "kept" : "NOT KEPT"
        exit NR == 0 || moving > 2 || still > 1.5
    }'
}

# ---- Instructions ----

# The instructions of a command, by whatever counts them here; what it prints goes to $out/told. Before the command may stand
# options of the emulator, where there is one. Names are bound at the start, so that no call pays for it.
counted() ( # counted COMMAND..
    set -o pipefail
    export LD_BIND_NOW=1
    if [ -z "$RUN" ]; then
        valgrind --tool=callgrind --callgrind-out-file=/dev/null "$@" 2>&1 >"$out/told" |
            sed -n 's/.*Collected *: *\([0-9]*\).*/\1/p' | grep .
    else
        $RUN -plugin "$out/count.so" "$@" 2>&1 >"$out/told" | sed -n 's/^instructions \([0-9]*\)$/\1/p' | grep .
    fi
)

# What counts here, in counter. The emulator's is built for the version of its plugins that it takes.
find_counter() {
    local version
    counter="valgrind's callgrind"
    if [ -z "$RUN" ]; then
        need valgrind valgrind
        return
    fi
    counter="a plugin of the emulator"
    need gcc gcc || return 1
    for version in 1 2 3 4 5; do
        gcc -std=c99 -O2 -Wall -Wextra -Wpedantic -Werror -fPIC -shared -DPLUGIN_VERSION=$version -o "$out/count.so" \
            bench/count.c || return 1
        counted "$out/wire" pair 2 /dev/null >/dev/null && return 0
    done
    return 1
}

# What each of so many costs, by the instructions with them and without.
cost_of_each() { # cost_of_each WITHOUT WITH NUMBER
    awk -v a="$1" -v b="$2" -v n="$3" 'BEGIN { printf "%.3f", (b - a) / n }'
}

# Words 'items cost..': how many items a way of feeding has, and for each function the instructions with the capture fed once less
# those without.
count_ways() { # count_ways SAMPLES-PER-CLOCK FUNCTION..
    local function without once items words
    without=$(counted "$out/bench" "$2" "$1" 0) && read -r items <"$out/told" || return 1
    words=$items
    for function in "${@:2}"; do
        once=$(counted "$out/bench" "$function" "$1" 1) || return 1
        words="$words $(cost_of_each "$without" "$once" "$items")"
    done
    echo "$words"
}

# A line 'samples-per-clock items run second-run sample second-sample items-of-the-wire draw second-draw'.
count_items() { # count_items SAMPLES-PER-CLOCK
    local fed drawn
    fed=$(count_ways "$1" wherryoar_run second_run wherryoar_sample second_sample) &&
        drawn=$(count_ways "$1" wherryoar_draw second_draw) && echo "$1 $fed $drawn"
}

# A line 'samples-per-clock moving sample second-sample still sample second-sample': how many samples move something, and how
# many are on the short way; beside each number the instructions with these samples fed less those without.
count_effects() { # count_effects SAMPLES-PER-CLOCK
    local function effect without once moving still line=$1
    if ! $RUN "$out/bench" "$1" >"$out/told" || ! read -r moving still <"$out/told"; then
        echo "The archive and the second program do not come to the same state with each sample, or do not draw the same words," \
            "at $1 samples per clock." >&2
        return 1
    fi
    without=$(counted "$out/bench" second_sample "$1" neither) || return 1
    for effect in moving still; do
        line="$line ${!effect}"
        for function in wherryoar_sample second_sample; do
            once=$(counted "$out/bench" "$function" "$1" "$effect") || return 1
            line="$line $(cost_of_each "$without" "$once" "${!effect}")"
        done
    done
    echo "$line"
}

# The wire that sigrok reads comes from the second program; the archive brings the same.
same_wires() {
    local density
    $CC_ARCHIVE $strict $door -o "$out/wire_archive" bench/wire.c bench/capture.c "$archive" || return 1
    for density in $densities; do
        $RUN "$out/wire" counted "$density" "$out/copy" >"$out/made" &&
            $RUN "$out/wire_archive" counted "$density" "$out/copy_archive" | cmp - "$out/made" &&
            cmp "$out/copy" "$out/copy_archive" || return 1
    done
}

# The tables of instructions, and the verdicts.
tell_instructions() {
    local density status=0
    build_bench && same_wires || return 1
    for density in $densities; do
        count_items "$density" || return 1
    done >"$out/counts"
    for density in $densities; do
        count_effects "$density" || return 1
    done >"$out/effect_counts"
    table "instructions (x86-64, counted by $counter)" <"$out/counts" || return 1
    budgets <"$out/counts" || status=1
    echo
    draw_table "instructions (x86-64, counted by $counter)" <"$out/counts" || return 1
    draw_budgets instructions <"$out/counts" || status=1
    echo
    effects_table "instructions (x86-64, counted by $counter)" <"$out/effect_counts" || return 1
    effects_budgets <"$out/effect_counts" || status=1
    echo
    sigrok_table "instructions (x86-64, counted by $counter)" "$out/counts" <"$out/sigrok_counts" || status=1
    return $status
}

# ---- Times ----

# Times the six once more. The best of each stays in $out/times: another program can slow this machine for seconds on end, so
# the times are taken at several moments.
take_times() {
    $RUN "$out/bench" >"$out/times_now" || return 1
    touch "$out/times"
    awk '
    FILENAME == ARGV[1] { for (i = 3; i <= 9; i++) best[$1, i] = $i; next }
    { for (i = 3; i <= 9; i++) if (($1, i) in best && best[$1, i] < $i) $i = best[$1, i]; print }
    ' "$out/times" "$out/times_now" >"$out/times_best" && mv "$out/times_best" "$out/times"
}

# The tables of times. Under an emulator nothing is judged by them, and one moment is enough.
tell_times() {
    local moment moments=3 sigrok=1
    [ -z "$RUN" ] || moments=1
    need sigrok-cli sigrok-cli || sigrok=
    rm -f "$out/times" "$out"/seconds_*
    build_bench && lay_first || return 1
    for ((moment = 0; moment < moments; moment++)); do
        take_times && { [ -z "$sigrok" ] || time_sigrok; } || return 1
    done
    if [ -z "$RUN" ]; then
        table "nanoseconds (best of several)" <"$out/times" || return 1
        budgets <"$out/times"
        echo
        draw_table "nanoseconds (best of several)" <"$out/times" || return 1
        draw_budgets nanoseconds <"$out/times"
        echo
    else
        echo "This machine is $(uname -m): the archive runs under an emulator, where times beside the second program say nothing."
    fi
    if [ -n "$sigrok" ]; then
        tell_sigrok_times
    else
        echo "sigrok-cli cannot be had, so there is no comparison with its times."
    fi
}

# ---- The parts ----

part=${1:-all}
wanted() { # wanted PART
    [ "$part" = all ] || [ "$part" = "$1" ]
}

# The parts that count, where something counts. An emulator need not take a plugin; valgrind has to be there.
by_instructions() {
    local status=0
    if ! find_counter; then
        echo "There is nothing here that counts, so no instructions are given."
        [ -n "$RUN" ]
        return
    fi
    if wanted sigrok; then
        count_sigrok || status=1
    fi
    if wanted instructions; then
        tell_instructions || status=1
    fi
    return $status
}

case $part in
all | sigrok | instructions | times) ;;
*)
    echo "usage: bench/run.sh [sigrok | instructions | times]" >&2
    exit 2
    ;;
esac
status=0
build_wire || exit 1
if [ "$part" != times ]; then
    by_instructions || status=1
fi
if wanted times; then
    [ "$part" = times ] || echo
    tell_times || status=1
fi
exit $status
