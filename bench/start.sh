#!/bin/sh
# Tells how long a call of ./defmtl takes once the program is built, beside one of the program itself: milliseconds of processor time.
#
#   bench/start.sh        at the repository's top, once ./defmtl has built the program; needs GNU time
#
# Each runs an empty script a hundred times, in the least of five rounds. A source that has changed is built first, which isn't counted.

. "$(dirname "$0")/common.sh"
need time

# a_call: the milliseconds of one call of what `program` names
a_call() {
    "$program" run < /dev/null > "$work/out" 2>&1 || { cat "$work/out" >&2; return 1; }
    spent=$(measured 5 100 /dev/null run) || return
    echo "$spent" | awk '{ printf "%.1f", $1 * 10 }'
}

own=$(a_call) || exit 1
program=$top/defmtl
whole=$(a_call) || exit 1
echo "milliseconds of the program: $own"
judge "milliseconds of the launcher and the program" "$whole" 50
exit "$worst"
