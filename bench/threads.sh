#!/bin/sh
# Compares `run` of 4,096 generated statements with `record` and `decode` of the same, in processor time.
#
#   bench/threads.sh [ROUNDS]        at the repository's top, once ./defmtl has built the program; needs GNU time
#
# Each of the three is run a hundred times, in so many rounds (5 where no number is given), of which the least counts.

. "$(dirname "$0")/common.sh"
need time

generated 4096 > "$work/script"
"$program" run < "$work/script" > "$work/lines" && "$program" table < "$work/script" > "$work/table.elf" && "$program" record < "$work/script" > "$work/stream" || exit 1
[ "$(wc -l < "$work/lines")" = 4096 ] || { echo "there are not 4,096 lines"; exit 1; }

rounds=${1:-5}
run=$(measured "$rounds" 100 "$work/script" run) && record=$(measured "$rounds" 100 "$work/script" record) \
    && decode=$(measured "$rounds" 100 "$work/stream" decode --table "$work/table.elf") || exit 1
echo "seconds of a hundred: run ${run% *}, record ${record% *}, decode ${decode% *}"
both=$(awk -v one="${record% *}" -v other="${decode% *}" 'BEGIN { print one + other }')
judge "the ratio of run to record and decode" "$(ratio "$both" "${run% *}")" 2
exit "$worst"
