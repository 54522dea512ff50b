#!/usr/bin/env bash
# Builds the archive and runs the C tests with it: on x86-64 as they are, elsewhere under an emulator. The last line counts.
#
#     run.sh          all of them
#     run.sh quick    in seconds: fewer rounds, no bench, and the archive that there is if its crate has not changed since
set -u
cd "$(dirname "$0")/.." || exit 2
. tools/machine.sh
. tests/try.sh
out=$(pwd)/target/tests
mkdir -p "$out"
strict="-Wall -Wextra -Wpedantic -Werror"
steps=20000000 mutations=4000000 dense=20000000 drawn=3000000
[ -z "$RUN" ] || steps=1000000 mutations=1000000 dense=3000000 drawn=300000 # an emulator is slow
case ${1:-} in
"") quick= ;;
quick) quick=yes steps=200000 mutations=100000 dense=200000 drawn=200000 ;;
*) echo "usage: run.sh [quick]" >&2; exit 2 ;;
esac
door="-Iinclude -Itests -Itests/second -DDOOR_PREFIX=wherryoar_ -DDOOR_HEADER=\"wherryoar.h\""
archive=target/staticlib/libdoor.a

# What the tests call for is installed before any of them, since two installations at once are refused. What cannot be had fails
# where it is used.
for wanted in pkg-config python3 sigrok-cli $([ -z "$RUN" ] && echo valgrind || echo gcc mmdebstrap); do
    need "$wanted" "$wanted"
done
[ -n "$quick" ] && [ -x target/bin/report ] || try report_program build_report

# ---- Tests that go through the door, once with the archive behind it and once with the second program ----

build() { # build NAME SOURCES..
    $CC_ARCHIVE -std=c99 -O2 $strict $door -o "$out/$1" "${@:2}" "$archive"
}
build_second() { # build_second NAME SOURCES..
    $CC_ARCHIVE -std=c99 -O2 $strict -Itests -Itests/second -o "$out/second_$1" "${@:2}" "$out/second.o"
}
with_archive() { # with_archive NAME EXTRA-SOURCES ARGUMENTS..
    try "build_$1" build "$1" "tests/$1.c" $2
    try "$1" $RUN "$out/$1" "${@:3}"
}
with_second() {
    try "build_second_$1" build_second "$1" "tests/$1.c" $2
    try "second_$1" $RUN "$out/second_$1" "${@:3}"
}
through_the_door() { # through_the_door with_archive|with_second
    beside "mangle_$1" "$1" mangle tests/traffic.c "$mutations"
    beside "checks_$1" "$1" checks ""
    beside "refusals_$1" "$1" refusals ""
    beside "ten_bit_rules_$1" "$1" ten_bit_rules ""
    beside "draw_$1" "$1" draw tests/traffic.c "$drawn"
    beside "agree_$1" "$1" agree "tests/second/plain.c tests/traffic.c" 400000
    beside "replay_$1" "$1" replay "" tests/vectors/request-9.txt
}

# ---- Without the archive ----

# The header by itself, as C99 and as C++11.
header() {
    echo '#include "wherryoar.h"' >"$out/header.c"
    try header_c99 $CC_ARCHIVE -std=c99 $strict -Iinclude -fsyntax-only "$out/header.c"
    try header_cxx11 $CXX_ARCHIVE -std=c++11 $strict -Iinclude -fsyntax-only -x c++ "$out/header.c"
}

# The report program on its stored cases, byte for byte; a case too long and dull to store is printed by a script.
text_of() { # text_of NAME.in or NAME.out
    if [ -f "tests/report/$1" ]; then cat "tests/report/$1"; else sh "tests/report/$1.sh"; fi
}
report_case() { # report_case NAME
    text_of "$1.in" >"$out/report.in" && text_of "$1.out" >"$out/report.expected" &&
        $RUN_PROGRAM target/bin/report <"$out/report.in" >"$out/report.out" && cmp "$out/report.out" "$out/report.expected"
}
# The answer to the complaint is as it is stored, and as the document that gives it shows it.
same_edges() {
    examples/left_edge.py >"$out/left_edge.out" && diff "$out/left_edge.out" examples/left_edge.out &&
        [ "$(grep -cxFf examples/left_edge.out docs/ANSWER.md)" -eq "$(wc -l <examples/left_edge.out)" ]
}
# The report's page shows the first lines of a stored report.
same_page() {
    sed -n '/^    item event/,/^$/s/^    //p' docs/REPORT.md >"$out/page.out" && [ -s "$out/page.out" ] &&
        head -n "$(wc -l <"$out/page.out")" tests/captures/brief_general_call_on.report | diff - "$out/page.out"
}
report_cases() {
    local name
    try left_edge same_edges
    try report_page same_page
    for name in $(ls tests/report | sed -n 's/\.in\(\.sh\)\{0,1\}$//p' | sort -u); do
        try "report_$name" report_case "$name"
    done
    try report_request_1 python3 tests/report_cases.py tests/vectors/request-1.txt $RUN_PROGRAM target/bin/report
}

# ---- With the archive ----

# The archive and the second program side by side. Then the test of that test: a bit turned over in the archive's answer (1),
# state (2), buffer (3) or view (4), in its view in the hold for ADD (5), or in a lane (6), has to be told, in a few steps that
# are a case of the stored form.
build_compare() {
    $CC_ARCHIVE -std=c99 -O2 $strict -Iinclude -Itests -Itests/second -o "$out/compare" \
        tests/compare.c tests/round.c tests/pair.c tests/traffic.c "$out/second.o" "$archive"
}
spoiled() { # spoiled PLACE
    $RUN "$out/compare" 100000 1 "$1" >"$out/spoiled_$1.txt" || return 1
    $RUN "$out/second_replay" "$out/spoiled_$1.txt" && tail -n 1 "$out/spoiled_$1.txt"
}
compared() {
    local place
    try build_compare build_compare
    try compare $RUN "$out/compare" "$steps"
    for place in 1 2 3 4 5 6; do
        try "spoiled_$place" spoiled "$place"
    done
}

# Runs and drawings in which a level stands for many samples; then runs, and words, spoilt on purpose, which has to be found.
dense_runs() {
    try build_dense build dense tests/dense.c tests/traffic.c "$out/second.o"
    try dense $RUN "$out/dense" "$dense"
    try spoiled_dense $RUN "$out/dense" 200000 7 1
    try spoiled_dense_words $RUN "$out/dense" 200000 7 2
}

# Samples that leave every byte, on states in memory that may only be read.
still_samples() {
    try build_still build still tests/still.c tests/traffic.c "$out/second.o"
    try still $RUN "$out/still" 20000
}

# What the header says of the archive as a whole: ten functions, nothing called, no memory of its own.
alone() {
    local functions others calls variables
    functions=$($NM -g "$archive" | grep -c ' T wherryoar_')
    others=$($NM -g "$archive" | grep ' [A-TV-Z] ' | grep -vc ' T wherryoar_')
    calls=$($NM -u "$archive" | grep -c ' [Uwv] ')
    variables=$($NM "$archive" | grep -c ' [BbCDdGgSs] ')
    echo "functions $functions, other names it offers $others, names it calls $calls, variables $variables"
    [ "$functions $others $calls $variables" = "10 0 0 0" ]
}

# Installed in a folder of its own, and from there the hosts in examples/.
installed() {
    local prefix flags status
    need pkg-config pkg-config || return 1
    prefix=$(mktemp -d) || return 1
    tools/install.sh "$prefix" && flags=$(PKG_CONFIG_PATH="$prefix/lib/pkgconfig" pkg-config --cflags --libs wherryoar) &&
        $CC_ARCHIVE -std=c99 -O2 $strict -o "$out/lanes" examples/lanes.c $flags &&
        $CC_ARCHIVE -std=c99 -O2 $strict -o "$out/ten_bit" examples/ten_bit.c $flags &&
        $CC_ARCHIVE -std=c99 -O2 $strict -o "$out/example_draw" examples/draw.c $flags
    status=$?
    rm -rf "$prefix"
    return $status
}

# The example that draws a record of its own prints what is stored.
same_drawing() { # same_drawing HOST..
    "$@" >"$out/draw.out" && diff "$out/draw.out" examples/draw.out && echo "as in examples/draw.out"
}

as_a_whole() {
    try alone alone
    try installed installed
    try lanes same_picture lanes $RUN "$out/lanes"
    try ten_bit same_picture ten_bit $RUN "$out/ten_bit"
    try example_draw same_drawing $RUN "$out/example_draw"
    try stack tools/stack.sh
}

# ---- All of them, the longest first: while the archive is built, those without it; what is timed, by itself ----

# The archive, and the state of the crates that it was built from.
state() {
    rt version && find $(tools/crates.sh below door_c | sed 's,^,crates/,') -path '*/out' -prune -o -path '*/must-fail' -prune -o \
        -type f -exec sha256sum {} + | sort -k 2
}
make_archive() {
    state >"$out/built_now" && ARCHIVE_BUILT= build_archive && mv "$out/built_now" "$out/built_from"
}
up_to_date() {
    [ -n "$quick" ] && [ -f "$archive" ] && state | cmp -s - "$out/built_from"
}
whole() { # whole COMMAND..: not among the quick tests
    [ -n "$quick" ] || "$@"
}

try build_second $CC_ARCHIVE -std=c99 -O2 $strict -Itests/second -c -o "$out/second.o" tests/second/second.c
up_to_date || { rm -f "$archive" && beside archive try archive make_archive; }
whole beside sigrok try bench_sigrok bench/run.sh sigrok
through_the_door with_second
beside header header
beside report_cases report_cases
settle
export ARCHIVE_BUILT=1 # nothing below builds it again; if it could not be built, all of it fails

beside compared compared
whole beside instructions try bench_instructions bench/run.sh instructions
through_the_door with_archive
beside dense_runs dense_runs
beside still_samples still_samples
beside as_a_whole as_a_whole
settle

whole try bench_times bench/run.sh times

echo "$passed passed, $failed failed"
[ "$failed" -eq 0 ]
