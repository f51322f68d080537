#!/bin/sh
# Sends a gibibyte through `decode --live` without `--jobs` and with it, and compares the seconds and the peak memory.
#
#   bench/jobs.sh [MIB [JOBS [ROUNDS]]]        so many MiB in place of 1,024, threads in place of 4, rounds in place of 3, of which the least counts;
#                                              at the repository's top, once ./defmtl has built the program; needs GNU time, and as many idle processors
#
# The bytes repeat the recording of 4,096 generated statements. The seconds are those of a clock, since threads share the work.

. "$(dirname "$0")/common.sh"
need time nproc

mib=${1:-1024} jobs=${2:-4} rounds=${3:-3}
[ "$(nproc)" -ge "$jobs" ] || echo "there are $(nproc) processors alone"
generated 4096 > "$work/script"
"$program" record < "$work/script" > "$work/once" && "$program" table < "$work/script" > "$work/table.elf" || exit 1
copies=$((mib * 1048576 / $(wc -c < "$work/once")))
yes "$work/once" | head -n "$copies" | xargs cat > "$work/recording" || exit 1

# decoded WORD..: the lines of the recording
decoded() {
    "$program" decode --table "$work/table.elf" --live "$@" < "$work/recording"
}

# spent INPUT WORD..: the seconds of the least round, and the peak memory in KiB of all
spent() {
    input=$1
    shift
    : > "$work/rounds"
    for _ in $(seq "$rounds"); do
        env time -a -o "$work/rounds" -f '%e %M' "$program" decode --table "$work/table.elf" --live "$@" < "$input" > /dev/null || exit 1
    done
    awk '{ if (NR == 1 || $1 < least) least = $1; if ($2 > peak) peak = $2 } END { printf "%.2f %d\n", least, peak }' "$work/rounds"
}

one=$(decoded | cksum) && many=$(decoded --jobs "$jobs" | cksum) || exit 1
none=$(spent /dev/null) && alone=$(spent "$work/recording") && beside=$(spent "$work/recording" --jobs "$jobs") || exit 1
echo "$mib MiB, $((copies * 4096)) lines: ${alone% *} s without --jobs, ${beside% *} s with --jobs $jobs; peak memory ${alone#* }, ${beside#* } KiB"
[ "$one" = "$many" ] || { echo "the lines of many threads are others"; worst=1; }

# At most a mebibyte of blocks a thread, and their lines, in buffers that grow by doubling.
most=$(printf '%s\n' "$one" | awk -v jobs="$jobs" -v bytes="$(wc -c < "$work/recording")" '{ printf "%d", 2 * jobs * 1024 * (1 + $2 / bytes) }')
judge "the part of the seconds that is left" "$(ratio "${alone% *}" "${beside% *}")" "$(awk -v jobs="$jobs" 'BEGIN { printf "%.4f", 1 / (0.8 * jobs) }')"
judge "the memory above that of none, in KiB" $((${beside#* } - ${none#* })) "$most"
exit "$worst"
