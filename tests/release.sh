#!/usr/bin/env bash
# Makes the release, unpacks it in a folder of its own and uses it there as a customer would: with no toolchain on the PATH, and
# nothing of this tree but what the results are compared with. The last line counts.
set -u
cd "$(dirname "$0")/.." || exit 2
. tools/machine.sh
. tests/try.sh
source=$(pwd)
out=$source/target/release_test
rm -rf "$out"
mkdir -p "$out"
for wanted in "pkg-config pkg-config" "python3 python3"; do
    need $wanted || try "needed_${wanted%% *}" false
done
[ ! -f target/staticlib/libdoor.a ] || export ARCHIVE_BUILT=1 # the one that the other tests ran with
unpacked=$(mktemp -d) || exit 2
trap 'rm -rf "$unpacked"' EXIT
strict="-O2 -Wall -Wextra -Wpedantic -Werror"

# ---- The customer's machine: the PATH without the folders that have the toolchain, and no other variable ----

customers_path() {
    local entry path=
    while IFS= read -r -d : entry; do
        [ -e "$entry/rt" ] || path=$path:$entry
    done <<<"$PATH:"
    echo "${path#:}"
}
customer() { # customer COMMAND..: in the unpacked folder
    (cd "$home" && env -i PATH="$(customers_path)" HOME="$unpacked" PKG_CONFIG_PATH="$home/lib/pkgconfig" \
        PYTHONDONTWRITEBYTECODE=1 "$@")
}
no_toolchain() {
    ! customer sh -c 'command -v rt' && customer sh -c 'command -v pkg-config' && echo "no rt on $(customers_path)"
}

# ---- The archive file ----

unpack() {
    local file
    file=$(ls target/release/wherryoar-*-x86_64.tar.gz) && (cd target/release && sha256sum -c --quiet ./*.sha256) &&
        tar -xzf "$file" -C "$unpacked" && ls -d "$unpacked"/wherryoar-*-x86_64
}
same_again() { # made once more it is the same, byte for byte
    local file
    file=$(ls target/release/*.tar.gz) && cp "$file" "$out/first.tar.gz" && tools/release.sh && cmp "$file" "$out/first.tar.gz"
}
sums() { # every file has its sum, and it is right
    customer sha256sum -c --quiet SHA256SUMS &&
        [ "$(wc -l <"$home/SHA256SUMS")" -eq "$(find "$home" -type f ! -name SHA256SUMS | wc -l)" ] && wc -l "$home/SHA256SUMS"
}
complete() { # what a customer is promised is there, and no file names the tree that it was made in
    local file
    for file in lib/libwherryoar.a lib/pkgconfig/wherryoar.pc include/wherryoar.h bin/wherryoar bin/wherryoar-report \
        libexec/wherryoar/draw README.md docs/RULES.md LICENCE-NOT-CHOSEN.txt; do
        [ -s "$home/$file" ] || { echo "there is no $file"; return 1; }
    done
    ! grep -rlF "$source" "$home"
}
one_version() { # of the file's name, of the pkg-config file and of the header
    local version
    version=$(customer pkg-config --modversion wherryoar) && [ "${home##*/}" = "wherryoar-$version-x86_64" ] &&
        [ "$(echo WHERRYOAR_VERSION | customer $CC_ARCHIVE -E -P -Iinclude -include wherryoar.h - | tail -n 1 | tr -d '" ')" = "$version" ] &&
        echo "$version"
}

# ---- What is in it, used ----

same_output() { # same_output EXPECTED COMMAND..: what the command prints in the unpacked folder, as it is stored
    customer "${@:2}" >"$out/printed" && diff "$out/printed" "$1" && echo "as in ${1#"$source"/}"
}
compile() { # compile PROGRAM COMPILER SOURCE..
    local flags
    flags=$(customer pkg-config --cflags --libs wherryoar) && customer $2 $strict -o "$unpacked/$1" "${@:3}" $flags
}
example() { # example NAME ARGUMENT..
    compile "$1" "$CC_ARCHIVE -std=c99" "examples/$1.c" && same_output "$home/examples/$1.out" $RUN "$unpacked/$1" "${@:2}"
}
from_cxx() {
    cat >"$unpacked/host.cpp" <<'END'
#include "wherryoar.h"
#include <cstdio>

int main()
{
    const char *const texts[] = WHERRYOAR_REFUSAL_TEXTS;
    const uint8_t record[] = {3, 2, 0};
    uint8_t state[WHERRYOAR_STATE_LENGTH], memory[4] = {};
    uint64_t lanes[3] = {};

    wherryoar_setup(state, sizeof state, 0x30, sizeof memory);
    const wherryoar_taken taken =
        wherryoar_draw(state, sizeof state, memory, sizeof memory, 0, sizeof memory, record, sizeof record, lanes, 3);
    std::printf("%s, %d words, Start %d, phase %u\n", texts[taken.refusal], static_cast<int>(taken.items),
                (lanes[1] & WHERRYOAR_WORD_START) != 0, WHERRYOAR_WORD_PHASE(lanes[2]));
}
END
    echo "done, 3 words, Start 1, phase 1" >"$out/host.out"
    compile host "$CXX_ARCHIVE -std=c++11" "$unpacked/host.cpp" && same_output "$out/host.out" $RUN "$unpacked/host"
}
show() { # the command finds its parts by itself; where the machine is another one it is told how to run its program
    same_output "$home/examples/show.out" ${RUN:+env "WHERRYOAR_PROGRAM=$RUN $home/libexec/wherryoar/draw"} \
        bin/wherryoar show examples/left_edge.txt --add 42
}
report() {
    same_output "$source/tests/report/worked.out" $RUN_PROGRAM bin/wherryoar-report <tests/report/worked.in
}

try release tools/release.sh
try again same_again
try unpack unpack
home=$(tail -n 1 "$out/unpack.log")
try no_toolchain no_toolchain
try sums sums
try complete complete
try one_version one_version
try draw example draw
try lanes example lanes examples/lanes.txt
try ten_bit example ten_bit examples/ten_bit.txt
try from_cxx from_cxx
try show show
try report report
try readme env "CC_ARCHIVE=$CC_ARCHIVE" "RUN=$RUN" python3 tests/readme.py # once there is a release to unpack

echo "$passed passed, $failed failed"
[ "$failed" -eq 0 ]
