#!/bin/sh
# Sends 3 GiB through `decode --live`, more than a recording may have without it, and tells the seconds and the peak memory.
#
#   bench/live.sh [MIB]        so many MiB in place of 3,072; at the repository's top, once ./defmtl has built the program; needs GNU time
#
# The bytes repeat the recording of 4,096 generated statements, come through a pipe, and make as many lines as they have frames.

. "$(dirname "$0")/common.sh"
need time

generated 4096 > "$work/script"
"$program" record < "$work/script" > "$work/once" && "$program" table < "$work/script" > "$work/table.elf" || exit 1
copies=$((${1:-3072} * 1048576 / $(wc -c < "$work/once")))

# peak COPIES: the lines, the seconds of processor time and the peak memory in KiB of so many copies
peak() {
    yes "$work/once" | head -n "$1" | xargs cat |
        env time -o "$work/time" -f '%U %S %M' "$program" decode --table "$work/table.elf" --live | wc -l > "$work/lines"
    awk -v lines="$(cat "$work/lines")" '{ printf "%d %.1f %d\n", lines, $1 + $2, $3 }' "$work/time"
}

none=$(peak 0) && all=$(peak "$copies") || exit 1
lines=${all%% *}
echo "${1:-3072} MiB: $lines lines, ${all#* } (seconds, peak memory in KiB); of no recording: ${none##* } KiB"
judge "the lines that are missing" $((copies * 4096 - lines)) 0
judge "the memory above that of none, in KiB" $((${all##* } - ${none##* })) 4096
exit "$worst"
