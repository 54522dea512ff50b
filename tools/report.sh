#!/usr/bin/env bash
# Prints the report of a text of items, and builds the report program first if need be; usage, below, is what --help says.
set -u

usage() {
    cat <<'END'
usage: tools/report.sh [FILE]      the report of FILE, or of standard input
       tools/report.sh --help      this text

The input is text, at most 60,000 bytes:
    0 1 2 3           a sample, 2 * SCL + SDA: what everybody but the modelled slave drives
    h                 a call of the slave's handler
    space, newline    skipped
    g                 as the very first byte alone: the general call is on (GCEN)

The slave has ADD 30 (hex) and a memory of 32 zero bytes. docs/REPORT.md says what is printed.

Exit status:
    0    a report was printed
    1    the input was refused; the one line printed is 'refused 4 at N', N items came before what is no item,
         or 'too long'
    2    no such file, or the report program could not be built or run
END
}

# Why there is no report, for standard error.
tell() { # tell MESSAGE
    echo "tools/report.sh: $1" >&2
}

[ $# -le 1 ] || { usage >&2; exit 2; }
case ${1:-} in
--help | -h) usage; exit 0 ;;
-?*) tell "there is no option $1; --help tells those that there are"; exit 2 ;;
esac
file=${1:-/dev/stdin}
case $file in /*) ;; *) file=$(pwd)/$file ;; esac
[ -r "$file" ] && [ ! -d "$file" ] || { tell "there is no file $file that can be read"; exit 2; }
cd "$(dirname "$0")/.." || exit 2
. tools/machine.sh >&2
program=target/bin/report
scratch=$(mktemp -d) || exit 2
trap 'rm -rf "$scratch"' EXIT

# The program is built from proved crates alone. What is proved stays so, and an interrupted build goes on where it was.
build() {
    local crates line crate status done=0
    crates=$(tools/crates.sh below report | wc -l)
    cat <<END
Building the report program, once: the $crates crates that it is made of are proved first, which takes some minutes.
That is why its lines can be relied on: they are proved to be what the rules say for every input, not for those tried.
If you interrupt it, the next run goes on where this one was.
END
    build_report 2>&1 >/dev/null | tee "$scratch/log" | while IFS= read -r line; do
        [[ $line =~ ^crate\ ([a-z0-9_]+): ]] && crate=${BASH_REMATCH[1]}
        [[ $line == "logic=proved "* ]] && echo "crate $((++done)) of $crates: $crate proved"
    done
    status=${PIPESTATUS[0]}
    [ "$status" -eq 0 ] || tail -n 40 "$scratch/log"
    return "$status"
}

[ -x "$program" ] || build >&2 || { tell "the report program could not be built"; exit 2; }
$RUN_PROGRAM "$program" <"$file" | tee "$scratch/report"
[ "${PIPESTATUS[0]}" -eq 0 ] || { tell "the report program did not come to its end"; exit 2; }

# The program itself ends with 0, whatever it prints; a refusal is the one line of its output.
case $(head -n 1 "$scratch/report") in
"too long")
    tell "the input is longer than 60,000 bytes, the most that a report takes; 'wherryoar show' takes a record of any length"
    exit 1
    ;;
"refused 4 at "*)
    tell "the input has a byte that is none of 0, 1, 2, 3, h, space and newline; a g counts as the very first byte alone"
    exit 1
    ;;
esac
