#!/bin/sh
# Counts what a statement costs in `record` and a frame in `decode`, in profile 1 and in profile 2, where a message carries its number.
#
#   bench/profiles.sh        at the repository's top, once ./defmtl has built the program; needs valgrind
#
# The script is that of `gen`, and the same with the line `profile 2`. Each command is counted at 1,024 and at 4,096 statements, and the difference is
# divided by the statements between them. Valgrind runs one thread at a time, so the counts of `record` have the turns of threads that wait in
# them, and vary: the least of three is taken.

. "$(dirname "$0")/common.sh"
need valgrind

# least COUNT INPUT WORD..: the least of so many counts of the program with these words
least() {
    many=$1 input=$2 best=
    shift 2
    while [ "$many" -gt 0 ]; do
        many=$((many - 1))
        now=$(counted "$@" < "$input") || exit 1
        [ -n "$best" ] && [ "$best" -le "$now" ] || best=$now
    done
    echo "$best"
}

for profile in 1 2; do
    for size in 1024 4096; do
        generated "$size" > "$work/script.$size"
        [ "$profile" = 1 ] || sed -i '/^stamp /a profile 2' "$work/script.$size"
        "$program" record < "$work/script.$size" > "$work/stream.$size" && "$program" table < "$work/script.$size" > "$work/table.elf" || exit 1
    done
    small=$(least 3 "$work/script.1024" record) && large=$(least 3 "$work/script.4096" record) || exit 1
    record=$(((large - small) / 3072))
    small=$(least 1 "$work/stream.1024" decode --table "$work/table.elf") && large=$(least 1 "$work/stream.4096" decode --table "$work/table.elf") || exit 1
    decode=$(((large - small) / 3072))
    echo "profile $profile: record $record instructions a statement, decode $decode a frame"
    [ "$profile" = 2 ] || first_record=$record first_decode=$decode
done
judge "record in profile 2 to profile 1" "$(ratio "$first_record" "$record")" 1.08
judge "decode in profile 2 to profile 1" "$(ratio "$first_decode" "$decode")" 1.08
exit "$worst"
