#!/bin/sh
# Measures `decode` of long recordings, up to the longest that is read.
#
#   bench/recordings.sh        at the repository's top, once ./defmtl has built the program; needs valgrind and GNU time
#
# The recordings repeat that of 4,096 generated statements. Instructions are counted at 1 and at 4 MiB, and their difference is divided by
# the frames between them; processor times are those of five runs, in the least of five rounds, at 4 and at 16 MiB; peak memory is that of 256 MiB beside none.

. "$(dirname "$0")/common.sh"
need valgrind time

generated 4096 > "$work/script"
"$program" record < "$work/script" > "$work/once" && "$program" table < "$work/script" > "$work/table.elf" || exit 1

# recording MIB: whole copies of the recording, as many as fit into this many MiB
recording() {
    copies=$(($1 * 1048576 / $(wc -c < "$work/once")))
    while [ "$copies" -gt 0 ]; do
        cat "$work/once"
        copies=$((copies - 1))
    done
}
# frames MIB: how many frames these are
frames() {
    echo $(($1 * 1048576 / $(wc -c < "$work/once") * 4096))
}

for size in 1 4 16; do recording "$size" > "$work/$size.bin"; done
recording 256 > "$work/256.bin"

small=$(counted decode --table "$work/table.elf" < "$work/1.bin") && large=$(counted decode --table "$work/table.elf" < "$work/4.bin") || exit 1
echo "instructions at 1 MiB: $small, at 4 MiB: $large"
echo "instructions a frame: $(((large - small) / ($(frames 4) - $(frames 1)))), with the start at 4 MiB $((large / $(frames 4)))"

small=$(measured 5 5 "$work/4.bin" decode --table "$work/table.elf") && large=$(measured 5 5 "$work/16.bin" decode --table "$work/table.elf") || exit 1
echo "seconds of five times 4 MiB: ${small% *}, of five times 16 MiB: ${large% *}"
judge "the ratio of processor times at 16 and at 4 MiB" "$(ratio "${small% *}" "${large% *}")" 4.2

none=$(measured 1 1 /dev/null decode --table "$work/table.elf") && all=$(measured 1 1 "$work/256.bin" decode --table "$work/table.elf") || exit 1
echo "at 256 MiB: ${all% *} seconds, peak memory ${all#* } KiB; of no recording: ${none#* } KiB"
judge "the memory of 256 MiB above that of none, in KiB" "$((${all#* } - ${none#* }))" 4096
exit "$worst"
