#!/usr/bin/env bash
# Builds the command's C program in the source tree, if it is missing or older than what it is made of, and prints the command
# line to run it by. ARCHIVE names the archive, if it is not where the gate puts it.
set -eu
cd "$(dirname "$0")/.."
. tools/machine.sh >&2
archive=${ARCHIVE:-target/staticlib/libdoor.a}
program=$(pwd)/target/command/draw

[ -f "$archive" ] || build_archive >&2
mkdir -p target/command
for part in "$archive" command/draw.c command/changes.h include/wherryoar.h; do
    [ "$program" -nt "$part" ] || rm -f "$program"
done
if [ ! -x "$program" ]; then
    $CC_ARCHIVE -std=c99 -O2 -Wall -Wextra -Wpedantic -Werror -Iinclude -o "$program.$$" command/draw.c "$archive" >&2
    mv "$program.$$" "$program" # two that build at once do not meet
fi
printf '%s%q\n' "${RUN:+$RUN }" "$program"
