#!/bin/sh
# Checks the must-fail edits. An edit is named by the error it holds. Each wrong program or definition in it begins with a line
#
#     # WHO: what is wrong              WHO, the public contracts that shut it out, refuse it by their own proof
#     # WHO at PLACE: what is wrong     the proof of PLACE refuses it: a function of the crate, or a law or theorem
#
# In a crate without code WHO is the theorem that refuses it.
#
#     edits.sh contracts            every public contract is named by at least two, and two contracts of one name by four; public is
#                                   what a crate's lib.rt offers, and a conversion (From, TryFrom) is a contract like the others
#     edits.sh refused [CRATE..]    tries them, by tools/refused.py, and tells of each wrong program and definition what refused
#                                   it. That proof must have failed by itself: a fact no longer holds. It has not where it only
#                                   rests on another proof that failed, nor where it no longer fits the code or the definition
set -u
cd "$(dirname "$0")/.." || exit 2
checked=0
missing=0

# The lines of some edits that say what is wrong: 'WHO: what' or 'WHO at PLACE: what'.
wrongs() { # wrongs EDIT..
    cat "$@" 2>/dev/null | sed -n 's/^# \([a-z0-9_, -]*: .*\)/\1/p'
}

# So many contracts more were checked; where they are not as they must be, that is told.
judged() { # judged STATUS HOW-MANY WHAT
    checked=$((checked + $2))
    [ "$1" -eq 0 ] && return
    missing=$((missing + $2))
    echo "NOT SO: $3"
}

# The names of a crate's public contracts, each as often as it has one.
offered() { # offered CRATE
    src=crates/$1/src
    [ -f "$src/lib.rt" ] || return
    set -- "$src/lib.rt" $(sed -n "s|^pub mod \([a-z0-9_]*\);|$src/\1.rt|p" "$src/lib.rt")
    sed -n 's/^ *pub \(extern "C" \)\{0,1\}fn \([a-z0-9_]*\).*/\2/p' "$@"
    sed -n '/^impl \(From\|TryFrom\)</,/^}/s/^    fn \([a-z0-9_]*\).*/\1/p' "$@"
}

# The public contracts of a crate.
contracts() { # contracts CRATE
    for named in $(offered "$1" | sort | uniq -c | sed 's/^ *\([0-9]*\) /\1:/'); do
        number=${named%%:*} function=${named#*:}
        times=$(wrongs "crates/$1"/must-fail/*.edit | sed 's/: .*//; s/ at [a-z0-9_-]*$//; s/.*/, &,/' | grep -c ", $function,")
        [ "$times" -ge $((2 * number)) ]
        judged $? "$number" "$1: $function, of $number contracts, is named by $times"
    done
}

case ${1:-} in
contracts) shift ;;
refused) shift; exec python3 tools/refused.py "$@" ;;
*) echo "usage: edits.sh contracts | edits.sh refused [CRATE..]" >&2; exit 2 ;;
esac
[ $# -gt 0 ] || set -- $(ls crates)
for crate in "$@"; do
    contracts "$crate"
done
echo "public contracts named by two wrong programs or definitions: $((checked - missing)) of $checked"
[ "$checked" -gt 0 ] && [ "$missing" -eq 0 ]
