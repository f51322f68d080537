#!/bin/sh
# Counts the instructions that a frame costs in `decode` without rules, with rules that show its line and with rules that don't, and what rules cost
# where there are none.
#
#   bench/rules.sh        at the repository's top, once ./defmtl has built the program; needs valgrind and callgrind_annotate, which comes with it
#
# The script is that of `gen`, whose strings all have a level. Each form is counted at 1,024 and at 4,096 frames, and the difference is divided by
# the frames between them, so that starting costs fall away. What rules cost where there are none is what the functions of rules, floors and
# screens execute themselves (defmt_hooks, and `screen` of defmt_decode and defmt_recording): a function that the compiler put into its caller
# isn't among them.

. "$(dirname "$0")/common.sh"
need valgrind callgrind_annotate

for size in 1024 4096; do
    generated "$size" > "$work/script"
    "$program" record < "$work/script" > "$work/stream.$size" && "$program" table < "$work/script" > "$work/table.elf" || exit 1
done

# frame WORD..: what a frame costs in `decode` with these words behind the table's
frame() {
    small=$(counted decode --table "$work/table.elf" "$@" < "$work/stream.1024") && large=$(counted decode --table "$work/table.elf" "$@" < "$work/stream.4096") || exit 1
    echo $(((large - small) / 3072))
}

none=$(frame) && shown=$(frame --only trace) && hidden=$(frame --only off) || exit 1
echo "instructions a frame: without rules $none, with --only trace $shown, with --only off $hidden"

valgrind --tool=callgrind --callgrind-out-file="$work/counts" "$program" decode --table "$work/table.elf" < "$work/stream.4096" > "$work/out" 2> "$work/log" || exit 1
rules=$(callgrind_annotate --threshold=100 "$work/counts" | awk '/defmt_hooks::|::screen(ed)?::/ { gsub(",", "", $1); sum += $1 } END { print sum + 0 }')
judge "instructions a line of rules where there are none" "$(ratio 4096 "$rules")" 10
judge "a line that isn't shown to one that is" "$(ratio "$shown" "$hidden")" 0.99
exit "$worst"
