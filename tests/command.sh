#!/usr/bin/env bash
# Tests the command wherryoar: its table, its readers, its pictures, what it refuses, how long it takes, and its page. The last
# line counts.
#
# ARCHIVE names the archive, if it is not where the gate puts it.
set -u
cd "$(dirname "$0")/.." || exit 2
. tools/machine.sh
. tests/try.sh
out=$(pwd)/target/command_tests
rm -rf "$out"
mkdir -p "$out/wires" "$out"/{tables,forms,pictures,wrong,suspicions,sigrok,checked,length,installed/bin,installed/libexec/wherryoar}
export PYTHONDONTWRITEBYTECODE=1
samples=10000000 seconds=10
[ -z "$RUN" ] || samples=500000 seconds=0 # an emulator is slow

# ---- What is needed: what cannot be had fails, it is not passed over ----

for wanted in "python3 python3" "gcc gcc" "sigrok-cli sigrok-cli"; do
    need $wanted || try "needed_${wanted%% *}" false
done
program() { # the C program, as the command itself builds it
    command/build.sh >"$out/program" && tail -n 1 "$out/program"
}
try command_program program
WHERRYOAR_PROGRAM=$(tail -n 1 "$out/program")
export WHERRYOAR_PROGRAM

# ---- Wire records: the stored captures, played by the second program, as digits ----

strict="-std=c99 -Wall -Wextra -Wpedantic -Werror -Itests -Itests/second"
wires() {
    local capture name
    gcc $strict -O2 -o "$out/capture" tests/capture.c tests/player.c tests/second/second.c tests/second/plain.c || return 1
    python3 tests/captures.py "$out/captures" || return 1
    for capture in "$out"/captures/*.txt; do
        name=$(basename "$capture")
        "$out/capture" wire "$capture" | tr '\000-\003' 0-3 >"$out/wires/$name" && echo >>"$out/wires/$name" || return 1
    done
    ls "$out/wires" | wc -l
}
try command_wires wires

# ---- The C program with the second program behind it, under sanitizers: the same tables and lanes ----

checked() {
    local as_second="" function
    for function in setup read write sample call run look hit find draw; do
        as_second="$as_second -Dwherryoar_$function=second_$function"
    done
    gcc $strict -g -O1 -fsanitize=address,undefined -fno-sanitize-recover=undefined -Iinclude $as_second \
        -o "$out/checked_draw" command/draw.c tests/second/second.c || return 1
    ASAN_OPTIONS=detect_leaks=0 python3 tests/command/checked.py "$out/checked" "$out/wires" "$out/checked_draw"
}

# ---- As it is installed: the script, its modules and its program in their folders, moved elsewhere ----

installed() {
    local folder="$out/installed" line
    install -m 755 command/wherryoar "$folder/bin" && install -m 644 command/*.py "$folder/libexec/wherryoar" || return 1
    printf '#!/bin/sh\nexec %s "$@"\n' "$WHERRYOAR_PROGRAM" >"$folder/libexec/wherryoar/draw" || return 1
    chmod 755 "$folder/libexec/wherryoar/draw"
    (cd / && env -u WHERRYOAR_PROGRAM "$folder/bin/wherryoar" show "$out/wires/brief_example.txt" --add 30 --n 32 --rate 1MHz) \
        >"$out/installed.table" || return 1
    head -n -1 tests/command/brief_example.table | diff - "$out/installed.table" && tail -n 1 "$out/installed.table"
}

# A source tree without a program builds one, and says nothing of it.
built() {
    env -u WHERRYOAR_PROGRAM command/wherryoar show "$out/wires/brief_example.txt" --add 30 --n 32 --rate 1MHz \
        >"$out/built.table" 2>"$out/built.said" || return 1
    head -n -1 tests/command/brief_example.table | diff - "$out/built.table" && cmp /dev/null "$out/built.said"
}

# ---- All of them ----

beside tables try command_tables python3 tests/command/tables.py "$out/tables" "$out/wires"
beside forms try command_forms python3 tests/command/forms.py "$out/forms" "$out/wires"
beside sigrok try command_beside_sigrok python3 tests/command/beside_sigrok.py "$out/sigrok" "$out/wires"
beside pictures try command_pictures python3 tests/command/pictures.py "$out/pictures" "$out/wires"
beside suspicions try command_suspicions python3 tests/command/suspicions.py "$out/suspicions" "$out/wires"
beside wrong try command_wrong python3 tests/command/wrong.py "$out/wrong"
beside page try command_page python3 tests/command/page.py
beside checked try command_checked checked
beside installed try command_installed installed
beside built try command_built built
settle
try command_length python3 tests/command/length.py "$out/length" "$samples" "$seconds" # timed, so by itself

rm -rf "$out/length"
echo "$passed passed, $failed failed"
[ "$failed" -eq 0 ]
