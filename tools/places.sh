#!/usr/bin/env bash
# Counts the places in src/ (and, for point 8, the answer files) that an older form of the language left, point by point as
# docs/DESIGN-PASS.md has them. `tools/places.sh` prints the counts, `tools/places.sh list` the places.
set -u
cd "$(dirname "$0")/.."

count() { # point, what it counts, pattern
    local found
    found=$(grep -nE "$3" crates/*/src/*.rt || true)
    if [ "${mode}" = list ]; then
        printf '== %s %s\n%s\n' "$1" "$2" "${found}"
    else
        printf '%s\t%s\t%s\n' "$1" "$(printf '%s' "${found}" | grep -c .)" "$2"
    fi
}

mode=${1:-count}
count 1 'own enums like Option or Result' '^(pub )?enum (Verdict|Made|Found|Decoded|Remembered|Whereabouts|Ninth|Meaning|Checked|StandardInput)\b'
count 1 'a verdict beside what it is about' '^(pub )?struct (Access|Called|Answered|Ran|Judged|Fed|Listened|Watched)\b'
count 1 'numbers for kinds' '^pub const [A-Z_]+: u8'
count 1 'functions from a kind or a refusal to its number' 'fn (number|slot_number|which_number|next_number|phase_number|refusal_number)\b'
count 1 'variants that stand for none' '\b(Nowhere|NotAnItem)\b'
count 2 'a function that picks, for each type' 'pick_(byte|phase|module|verdict)\('
count 2 'functions that differ in a type, a test or a step' 'fn (eight|past)_(below|same)\b|fn (taking|sending|resting|handle_in|run_part|draw_part|is_own|fits_add|low|high|word|con2_bits|con3_bits|stat_held|con1_held|con2_held|con3_held|slot_from|which_from|next_from)\b'
count 2 'a bit taken out by hand' '/ [0-9]+ % 2 == 1'
count 2 'a level lowered by what is pulled, line by line' '![a-z_.()]*pull[a-z_()]* & '
count 3 'loops that count an index' '^ *while '
count 4 'arms that say true or false' '=> (true|false),$'
count 4 'arms that hand on what was given' 'Phase::\w+(\(_(, _)?\)| \{ \.\. \})? => (phase|none|0|false|m|\{\}),?$'
count 4 'derives of Clone and Copy alone' '^#\[derive\(Clone, Copy\)\]'
count 4 'conversions by as' ' as (u8|u16|u32|u64|usize)\b'
count 4 'fields named twice' '^ *(\w+): \1,$'
count 4 'copies of a field into a variable' '^ *let (\w+) = \w+(\.\w+)+;$'
count 5 'free functions over a type of this repository' '^(pub )?fn \w+\(\w+: (&mut |&)?(Phase|Module|State|Config|Line|Edge|Bits|Hit|Reader|Device|Place|Verdict|Found|Seen|World|Handler|Live|Stand|Brush|Carried|Remembered|Turn|Heard|Run)\b'
count 5 'parameters that travel together' 'scl: bool, sda: bool|c: Config, l: Live|at: usize|module_length ≤|≤ most_standing|< 2 \^ 64'
count 6 'a buffer with a place or a length beside it' 'output: &mut \[u8\]|handler_length ≤|module_length ≤'
count 7 'a wrapper for each step' 'fn (handle_in|run_part|draw_part)\b'
if [ "${mode}" = list ]; then
    printf '== 8 answer files\n'
    find crates/*/proofs -name Answers.antt | sort
else
    printf '8\t%s\t%s\n' "$(find crates/*/proofs -name Answers.antt | wc -l)" 'answer files'
    printf '8\t%s\t%s\n' "$(cat crates/*/proofs/*/Answers.antt crates/*/proofs/*/*/Answers.antt 2>/dev/null | wc -l)" 'lines in them'
fi
