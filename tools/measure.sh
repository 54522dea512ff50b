#!/usr/bin/env bash
# Prints, for each crate, lines of code, of definitions and of proof (laws, theorems and proofs/), and the ratio over all.
set -u
cd "$(dirname "$0")/.." || exit 2
laws='Laws|Theorems|Edges|Kept|Readback|Bits|Simulation|Demand|Before|Cut|Extent|Examples|Bench|Tests|Room|Worked|Image|Sampled|Loop|Walking|DemandOne|DemandTwo|DemandThree|HandlerIsFirmware|ModeStays|Following|Serving|Addresses|Writing|Painting|Drawing|Draws'
lines() { cat /dev/null "$@" 2>/dev/null | grep -cv '^[[:space:]]*$'; }
# Whether a file of specs/ holds laws. One that has its namesake in proofs/ holds what those say, and image's Image what an image is.
of_laws() { # of_laws FILE
    [[ $1 =~ /($laws)\.antt$ ]] && [ ! -f "${1/specs/proofs}" ] && [ "$1" != crates/image/specs/Image.antt ]
}
all_code=0 all_proof=0
printf '%-14s %6s %12s %6s\n' crate code definitions proof
for crate in $(sed -n 's/^\([a-z0-9_]*\)[^:#]*:.*/\1/p' crates.txt); do
    code=$(lines crates/"$crate"/src/*.rt)
    defined=0
    proof=$(lines $(find crates/"$crate"/proofs -name '*.antt' 2>/dev/null))
    for file in $(ls crates/"$crate"/specs/*.antt 2>/dev/null); do
        if of_laws "$file"; then proof=$((proof + $(lines "$file"))); else defined=$((defined + $(lines "$file"))); fi
    done
    printf '%-14s %6d %12d %6d\n' "$crate" "$code" "$defined" "$proof"
    all_code=$((all_code + code)) all_proof=$((all_proof + proof))
done
awk -v c=$all_code -v p=$all_proof 'BEGIN { printf "in all %d lines of code, %d of proof: %.1f for each\n", c, p, p / c }'
