# Sourced by the test scripts (bash): a test is a command, whose output goes to a log under $out and whose end is told and
# counted. Groups of tests run beside one another, one for each core. And what both scripts test.
passed=0
failed=0
groups=() # begun and not yet told
cores=$(nproc)
trap 'kill $(jobs -p) 2>/dev/null' EXIT # a script that is stopped begins nothing more

try() { # try NAME COMMAND..
    local name=$1 from=$SECONDS
    shift
    if "$@" >"$out/$name.log" 2>&1; then
        passed=$((passed + 1))
        echo "test $name: passed ($((SECONDS - from)) s) $(tail -n 1 "$out/$name.log")"
    else
        failed=$((failed + 1))
        echo "test $name: FAILED"
        tail -n 20 "$out/$name.log"
    fi
}

# Begins a group as soon as a core is free: a command that makes tests, one after the other. What it tells and counts goes to
# files.
beside() { # beside GROUP COMMAND..
    while [ "$(jobs -rp | wc -l)" -ge "$cores" ]; do
        wait -n
    done
    groups+=("$1")
    rm -f "$out/$1.counts"
    (
        passed=0 failed=0
        "${@:2}"
        echo "$passed $failed" >"$out/$1.counts"
    ) >"$out/$1.told" 2>&1 &
}

# Waits for all groups and tells them in the order in which they were begun. One that did not come to its end has failed.
settle() {
    local group group_passed group_failed
    wait
    for group in "${groups[@]}"; do
        cat "$out/$group.told"
        if [ -s "$out/$group.counts" ]; then
            read -r group_passed group_failed <"$out/$group.counts"
        else
            echo "test $group: FAILED, it did not come to its end"
            group_passed=0 group_failed=1
        fi
        passed=$((passed + group_passed))
        failed=$((failed + group_failed))
    done
    groups=()
}

# An example host draws its stored picture.
same_picture() { # same_picture NAME HOST..: examples/NAME.txt gives examples/NAME.out
    "${@:2}" "examples/$1.txt" >"$out/$1.out" && diff "$out/$1.out" "examples/$1.out" && echo "as in examples/$1.out"
}
