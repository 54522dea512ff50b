#!/usr/bin/env bash
# Runs the tests that look from outside: captures and step lists of the source documents, the plain reader on cut records and
# beside sigrok, the converters, fuzzing, and our C under sanitizers. The last line counts.
#
# ARCHIVE and REPORT name the archive and the report program, if they are not where the gate puts them.
set -u
cd "$(dirname "$0")/.." || exit 2
. tools/machine.sh
. tests/try.sh
out=$(pwd)/target/outside
rm -rf "$out"
mkdir -p "$out/captures" "$out/wires/ten_bit" "$out/sigrok" "$out/inputs" "$out/checked"
export PYTHONDONTWRITEBYTECODE=1
export ASAN_OPTIONS=detect_leaks=0 # a leak check takes seconds a process on some machines; it is on where memory is allocated

# ---- What is needed: what cannot be had fails, it is not passed over ----

archive=${ARCHIVE:-target/staticlib/libdoor.a}
report=${REPORT:-target/bin/report}
run_report=$RUN_PROGRAM # the report program wants a C library: elsewhere than on x86-64 the cross compiler's
[ -f "$archive" ] || try archive build_archive
[ -f "$report" ] || try report_program build_report
for wanted in "python3 python3" "gcc gcc" "clang clang" "sigrok-cli sigrok-cli"; do
    need $wanted || try "needed_${wanted%% *}" false
done
fuzzer_at_hand() { # the fuzzer's library is a package of its own
    echo 'int LLVMFuzzerTestOneInput(const unsigned char *d, unsigned long n) { return d && n > 8 ? 0 : 0; }' >"$out/probe.c"
    link_probe() { clang -fsanitize=fuzzer,address,undefined -o "$out/probe" "$out/probe.c"; }
    link_probe || { DEBIAN_FRONTEND=noninteractive apt-get install -y -qq libclang-rt-dev && link_probe; }
}
fuzzer_at_hand >/dev/null 2>&1 || try needed_fuzzer fuzzer_at_hand

# ---- Building: with the archive, with the second program for the same machine, and natively with sanitizers ----

strict="-std=c99 -Wall -Wextra -Wpedantic -Werror -Itests -Itests/second -Itests/fuzz"
door="-Iinclude -DDOOR_PREFIX=wherryoar_ -DDOOR_HEADER=\"wherryoar.h\""
checked="-g -O1 -fsanitize=address,undefined -fno-sanitize-recover=undefined -DFUZZ_CHECKED"
second=tests/second/second.c
plain=tests/second/plain.c
as_second= # an example calls the second program's functions in place of the archive's
for function in setup read write sample call run draw look hit find; do
    as_second="$as_second -Dwherryoar_$function=second_$function"
done

# With the archive, for its machine, and with the second program, natively.
build_all() {
    local sources program
    for sources in "capture tests/player.c" sequences; do
        program=${sources%% *}
        $CC_ARCHIVE $strict $door -O2 -o "$out/$program" tests/$program.c ${sources#"$program"} $plain "$archive" || return 1
        gcc $strict -O2 -o "$out/second_$program" tests/$program.c ${sources#"$program"} $second $plain || return 1
    done
    for program in wirebytes cut; do
        gcc $strict -O2 -o "$out/$program" tests/$program.c $plain || return 1
    done
    $CC_ARCHIVE $strict -Iinclude -O2 -o "$out/ten_bit" examples/ten_bit.c "$archive" || return 1
    gcc $strict -Iinclude $as_second -O2 -o "$out/second_ten_bit" examples/ten_bit.c $second || return 1
    $CC_ARCHIVE $strict $door -O2 -c -o "$out/step_archive.o" tests/fuzz/step.c || return 1
    $CC_ARCHIVE $strict -DFUZZ_ARCHIVE -O2 -o "$out/door_corpus" tests/fuzz/door_fuzz.c tests/fuzz/corpus_main.c \
        tests/fuzz/step.c $second "$out/step_archive.o" "$archive"
}

# With the second program and sanitizers, natively; what several of them share is compiled once.
build_checked() {
    local source program
    for source in $second $plain tests/traffic.c tests/player.c; do
        gcc $strict $checked -c -o "$out/checked/$(basename "$source" .c).o" "$source" || return 1
    done
    for program in replay checks refusals ten_bit_rules draw sequences cut wirebytes capture agree dense mangle; do
        gcc $strict $checked -o "$out/checked_$program" tests/$program.c "$out"/checked/*.o || return 1
    done
    gcc $strict $checked -Iinclude $as_second -o "$out/checked_second_ten_bit" examples/ten_bit.c "$out/checked/second.o" ||
        return 1
    gcc $strict $checked -o "$out/checked_corpus" tests/fuzz/door_fuzz.c tests/fuzz/corpus_main.c tests/fuzz/step.c \
        "$out/checked/second.o"
}

# What needs the archive itself can be checked so where the archive runs natively.
build_checked_archive() {
    gcc $strict $checked -Iinclude -o "$out/checked_compare" tests/compare.c tests/round.c tests/pair.c "$archive" \
        "$out"/checked/traffic.o "$out"/checked/second.o &&
        gcc $strict $checked -Iinclude -o "$out/checked_bench" bench/bench.c bench/capture.c "$out"/checked/second.o "$archive" &&
        gcc $strict $checked $door -o "$out/checked_wire" bench/wire.c bench/capture.c "$archive" &&
        gcc $strict $checked -Iinclude -o "$out/checked_lanes" examples/lanes.c "$archive" &&
        gcc $strict $checked -Iinclude -o "$out/checked_ten_bit" examples/ten_bit.c "$archive"
}
builds_checked() {
    try build_checked build_checked
    [ -n "$RUN" ] || try build_checked_archive build_checked_archive
}

# ---- Step lists and captures ----

same_reports() ( # same_reports FOLDER COMMAND..: the report of each capture, which the command reads from standard input
    set -o pipefail
    count=0
    for capture in "$1"/*.txt; do
        "${@:2}" <"$capture" | diff - "tests/captures/$(basename "$capture" .txt).report" || return 1
        count=$((count + 1))
    done
    echo "captures $count"
)
same_wires() ( # the wire record of each capture, by the archive and by the second program; those of ten bits as text too
    set -o pipefail
    same_wire() { # same_wire CAPTURE PROGRAM OPTION
        wire="$out/wires/$(basename "$1" .txt).bin"
        $RUN "$out/$2" "$3" "$1" >"$wire" && "$out/second_$2" "$3" "$1" | cmp - "$wire"
    }
    for capture in "$out"/captures/*.txt; do
        same_wire "$capture" capture wire || return 1
    done
    for capture in "$out"/captures/ten_bit/*.txt; do
        same_wire "$capture" ten_bit -w && tr '\000-\003' 0-3 <"$wire" >"$out/wires/ten_bit/$(basename "$capture")" || return 1
    done
)
same_ten_bit() ( # same_ten_bit HOST..: the lanes of each ten-bit capture, as examples/ten_bit.c draws them
    set -o pipefail
    count=0
    for capture in "$out"/captures/ten_bit/*.txt; do
        "$@" "$capture" | diff - "tests/captures/$(basename "$capture" .txt).lanes" || return 1
        count=$((count + 1))
    done
    echo "captures $count"
)
captures() {
    try build build_all
    try sequences $RUN "$out/sequences"
    try second_sequences "$out/second_sequences"
    try captures python3 tests/captures.py "$out/captures"
    try captures_report same_reports "$out/captures" $run_report "$report"
    try captures_archive same_reports "$out/captures" $RUN "$out/capture" report -
    try captures_second same_reports "$out/captures" "$out/second_capture" report -
    try report_cases_second python3 tests/report_cases.py tests/vectors/request-1.txt "$out/second_capture" report -
    try captures_wires same_wires
    try ten_bit_archive same_ten_bit $RUN "$out/ten_bit"
    try ten_bit_second same_ten_bit "$out/second_ten_bit"
    try ten_bit_report same_reports "$out/wires/ten_bit" $run_report "$report"
    try ten_bit_report_second same_reports "$out/wires/ten_bit" "$out/second_capture" report -
    try cuts "$out/cut" "$out"/wires/*.bin
}

# ---- sigrok ----

sigrok_random() {
    try sigrok_random python3 tests/sigrok_agree.py random "$out/wirebytes" "$out/sigrok" 300000
    dd if="$out/sigrok/random.bin" of="$out/sigrok/random_part.bin" bs=40000 count=1 2>/dev/null
    try cuts_random "$out/cut" "$out/sigrok/random_part.bin"
}
sigrok() {
    try sigrok_whole python3 tests/sigrok_agree.py whole "$out/wirebytes" "$out"/wires/*.bin
    try sigrok_ten_bit python3 tests/sigrok_agree.py ten_bit "$out/wirebytes" "$out"/wires/brief_ten_bit_*.bin
    try sigrok_cuts python3 tests/sigrok_agree.py cuts "$out/wirebytes" "$out/sigrok" "$out/wires/brief_combined.bin"
    try sigrok_listed python3 tests/sigrok_agree.py listed "$out/wirebytes" "$out/sigrok"
}

# ---- Converters ----

convert() {
    try convert python3 tests/convert_test.py "$out/convert" "$out"/wires/brief_*.bin "$out"/wires/bench_4.bin
}

# ---- Fuzzing ----

same_as_report() ( # what the report program prints for each input, beside the second program's report
    set -o pipefail
    count=0
    for input in tests/fuzz/corpus/report/* "$out"/inputs/*; do
        $run_report "$report" <"$input" >"$out/report" || return 1
        "$out/second_capture" report "$input" | cmp - "$out/report" || { echo "$input"; return 1; }
        count=$((count + 1))
    done
    echo "inputs $count"
)
stored_inputs() {
    try fuzz_inputs python3 tests/fuzz/report_inputs.py "$out/inputs"
    try fuzz_report_corpus same_as_report
    try fuzz_corpus $RUN "$out/door_corpus" 20000 tests/fuzz/corpus/door/*
    try fuzz_corpus_checked env ASAN_OPTIONS=detect_leaks=1 "$out/checked_corpus" 2000 tests/fuzz/corpus/door/*
}

# The fuzzer itself runs natively: everywhere with the second program, on x86-64 with the archive and with the report program.
fuzz() { # fuzz SECONDS NAME CORPUS SOURCES-AND-OPTIONS..
    local seconds=$1 target=$2 corpus=$3
    shift 3
    clang $strict $checked -fsanitize=fuzzer -o "$out/$target" $second "$@" || return 1
    mkdir -p "$out/$target.found"
    (cd "$out" && "./$target" -seed=1 -max_len=300 -max_total_time="$seconds" "$target.found" "$OLDPWD/$corpus")
}
fuzz_door="tests/fuzz/door_fuzz.c tests/fuzz/step.c"
fuzz_report="-D_POSIX_C_SOURCE=200809L tests/fuzz/report_fuzz.c tests/player.c $plain"
told_apart() { # a program that prints its input back is no report program, and the fuzzer has to say so
    if (cd "$out" && REPORT=$(command -v cat) ./fuzz_report -runs=1000 -seed=1) >"$out/told" 2>&1; then return 1; fi
    grep "^broken: " "$out/told"
}
fuzz_second() {
    try fuzz_second fuzz 4 fuzz_second tests/fuzz/corpus/door $fuzz_door
}
fuzz_archive() {
    try fuzz_archive fuzz 14 fuzz_archive tests/fuzz/corpus/door $fuzz_door -DFUZZ_ARCHIVE "$out/step_archive.o" "$archive"
}
fuzz_report() {
    REPORT=$(realpath "$report")
    export REPORT
    try fuzz_report fuzz 7 fuzz_report tests/fuzz/corpus/report $fuzz_report
    try fuzz_report_spoiled told_apart
}

# ---- Sanitizers ----

bench_checked() { # each way of feeding, at some samples per clock, and the wire
    local function
    for function in wherryoar_run second_run wherryoar_sample second_sample wherryoar_draw second_draw; do
        "$out/checked_bench" "$function" 20 1 || return 1
    done
    "$out/checked_bench" 20 && "$out/checked_bench" wherryoar_sample 20 still || return 1
    "$out/checked_wire" counted 4 "$out/bench_wire"
}
checked() {
    try checked_replay "$out/checked_replay" tests/vectors/request-9.txt
    try checked_agree "$out/checked_agree" 40000
    try checked_checks "$out/checked_checks"
    try checked_dense "$out/checked_dense" 200000
    try checked_sequences "$out/checked_sequences"
    try checked_captures same_reports "$out/captures" "$out/checked_capture" report -
    try checked_captures_ten_bit same_ten_bit "$out/checked_second_ten_bit"
    try checked_second_ten_bit same_picture ten_bit "$out/checked_second_ten_bit"
    try checked_cut "$out/checked_cut" "$out"/wires/brief_*.bin
    try checked_wirebytes "$out/checked_wirebytes" "$out/sigrok/random.bin"
    try checked_wirebytes_s "$out/checked_wirebytes" -s "$out/sigrok/random.bin"
    try checked_refusals "$out/checked_refusals"
    try checked_ten_bit_rules "$out/checked_ten_bit_rules"
    try checked_draw "$out/checked_draw" 200000
    try checked_mangle "$out/checked_mangle" 100000
    if [ -z "$RUN" ]; then
        try checked_compare "$out/checked_compare" 200000
        try checked_bench bench_checked
        try checked_lanes same_picture lanes "$out/checked_lanes"
        try checked_ten_bit same_picture ten_bit "$out/checked_ten_bit"
    fi
}

# ---- All of them: first what others read, then the longest first ----

readings() {
    captures
    sigrok_random
}
beside readings readings
beside builds_checked builds_checked
settle

if [ -z "$RUN" ]; then
    beside fuzz_archive fuzz_archive
    beside fuzz_report fuzz_report
fi
beside sigrok sigrok
beside fuzz_second fuzz_second
beside convert convert
beside stored_inputs stored_inputs
beside checked checked
settle

echo "$passed passed, $failed failed"
[ "$failed" -eq 0 ]
