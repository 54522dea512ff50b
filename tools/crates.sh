#!/bin/sh
# Prints crates of crates.txt, one a line, in its order: those named, and with them
#
#     crates.sh below NAME..    all that they rest on
#     crates.sh above NAME..    all that rest on them, their users
set -u
cd "$(dirname "$0")/.." || exit 2
way=${1:-}
case $way in
below | above) shift ;;
*) echo "usage: crates.sh below|above NAME.." >&2; exit 2 ;;
esac
awk -v way="$way" -v names="$*" '
{ sub(/#.*/, "") }
/:/ {
    name = substr($0, 1, index($0, ":") - 1)
    sub(/ .*/, "", name) # behind it may stand what kind of crate it is
    order[++count] = name
    uses[name] = " " substr($0, index($0, ":") + 1) " "
}
function next_to(a, b) { return way == "below" ? index(uses[a], " " b " ") : index(uses[b], " " a " ") }
function reach(name,    i) {
    if (name in reached) return
    reached[name] = 1
    for (i = 1; i <= count; i++) if (next_to(name, order[i])) reach(order[i])
}
END {
    n = split(names, wanted, " ")
    for (i = 1; i <= n; i++) reach(wanted[i])
    for (i = 1; i <= count; i++) if (order[i] in reached) print order[i]
}' crates.txt
