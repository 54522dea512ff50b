#!/usr/bin/env bash
# Prints the most bytes of stack that wherryoar_sample, its short way, wherryoar_draw, wherryoar_run and the other functions use, by the archive's
# code, and whether the budgets are kept; one that is not ends this with 1. Or that of the functions named, without a budget.
#
#     stack.sh [FUNCTION | 'FUNCTION without CALLEE']..
set -u
cd "$(dirname "$0")/.." || exit 2
. tools/machine.sh
need python3 python3 || exit 2
archive=target/staticlib/libdoor.a
build_archive || exit 1
short_way="wherryoar_sample without module_calls::move_on" # the sample that moves nothing
if [ $# -eq 0 ]; then
    set -- "wherryoar_sample within 512" "$short_way within 300" "wherryoar_draw within 768"
    for function in run call write read look setup hit find; do
        set -- "$@" "wherryoar_$function within 704"
    done
fi
python3 tools/stack.py "$OBJDUMP" "$archive" "$@"
