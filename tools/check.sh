#!/usr/bin/env bash
# For work between two runs of the gate: proves what has changed and its users, tries the must-fail edits of those crates and
# runs the quick C tests. What was proved, or tried, and has not changed since is not done again. The verdict stays .ci/run.
#
#     check.sh [REVISION]    changed since REVISION; without one since what origin/main has, or else since the last commit
set -u
cd "$(dirname "$0")/.." || exit 2
. tools/machine.sh
base=${1:-$(git merge-base HEAD origin/main 2>/dev/null || git rev-parse HEAD)}
status=0
say() { # say STATUS WHAT
    if [ "$1" -eq 0 ]; then echo "ok: $2"; else echo "FAILED: $2"; status=1; fi
}

# The crates with a file of such a name that differs from the revision.
differing() { # differing NAMES
    { git diff --name-only "$base" -- crates; git ls-files --others --exclude-standard -- crates; } |
        sed -nE "s,^crates/([a-z0-9_]+)/($1)$,\1,p" | sort -u
}

# What has changed, and the users of changed code, definitions and theorems: the proof of a function changes nothing for them.
changed() {
    { differing 'proofs/.*|must-fail/.*'; tools/crates.sh above $(differing 'src/.*|specs/.*|proofs/[^/]*'); } | sort -u
}

# Proves the crates; tells of those that were not proved before, and all that was said where one is not proved.
prove() { # prove CRATE..
    local crate from
    mkdir -p target/proved
    for crate in "$@"; do
        [ "$(key_of "$crate")" != "$(cat "target/proved/$crate" 2>/dev/null)" ] || continue
        from=$SECONDS
        (cd "crates/$crate" && rt check) >target/check.log 2>&1 || { cat target/check.log; return 1; }
        key_of "$crate" >"target/proved/$crate"
        echo "$crate proved ($((SECONDS - from)) s)"
    done
}

# What a crate and its edits stand on: the toolchain, its own files, and the code, definitions and theorems of all that it rests on.
key_of() { # key_of CRATE
    local crate
    {
        rt version
        find "crates/$1" -path '*/out' -prune -o -type f -exec sha256sum {} +
        for crate in $(tools/crates.sh below "$1"); do
            find "crates/$crate/src" "crates/$crate/specs" -type f -exec sha256sum {} + 2>/dev/null
            sha256sum "crates/$crate"/proofs/*.antt 2>/dev/null
        done
    } | sort | sha256sum
}

# Those of the crates whose edits have not been tried as they stand.
untried() { # untried CRATE..
    local crate
    for crate in "$@"; do
        ls "crates/$crate"/must-fail/*.edit >/dev/null 2>&1 || continue
        [ "$(key_of "$crate")" = "$(cat "target/tried/$crate" 2>/dev/null)" ] || echo "$crate"
    done
}

# Tries the edits of some crates.
try_edits() { # try_edits CRATE..
    local crate
    mkdir -p target/tried
    rt must-fail "$@" && tools/edits.sh refused "$@" || return 1
    for crate in "$@"; do key_of "$crate" >"target/tried/$crate"; done
}

laid_out
say $? "layout of the sources"
tools/edits.sh contracts
say $? "two wrong programs or definitions for each public contract"
crates=$(changed)
echo "changed since ${base:0:12}, with users:" ${crates:-no crate}
if [ -n "$crates" ]; then
    prove $crates
    say $? "proved"
fi
if [ "$status" -eq 0 ] && crates=$(untried $crates) && [ -n "$crates" ]; then
    try_edits $crates
    say $? "edits refused"
fi
if [ "$status" -eq 0 ]; then
    tests/run.sh quick
    say $? "quick C tests"
fi
exit "$status"
