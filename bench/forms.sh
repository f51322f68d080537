#!/bin/sh
# Counts what a frame costs in `decode` in each form of its line, to one that is printed plainly.
#
#   bench/forms.sh        at the repository's top, once ./defmtl has built the program; needs valgrind
#
# The script is that of `gen`, with stamps, five strings and two arguments in some. Each form is counted at 1,024 and at 4,096 frames, and the
# difference is divided by the frames between them, so that starting costs fall away. The places are of 20 bytes, one for each string.

. "$(dirname "$0")/common.sh"
need valgrind

for size in 1024 4096; do
    generated "$size" > "$work/script"
    "$program" record < "$work/script" > "$work/stream.$size" && "$program" table < "$work/script" > "$work/table.elf" || exit 1
done
for index in 1 2 3 4 5 6; do echo "$index src/motor/main.rs:12$index"; done > "$work/places"

# frame WORD..: what a frame costs in `decode` with these words behind the table's
frame() {
    small=$(counted decode --table "$work/table.elf" "$@" < "$work/stream.1024") && large=$(counted decode --table "$work/table.elf" "$@" < "$work/stream.4096") || exit 1
    echo $(((large - small) / 3072))
}

plain=$(frame) && json=$(frame --json) && color=$(frame --color) && places=$(frame --places "$work/places") && live=$(frame --live)
echo "instructions a frame: plain $plain, --json $json, --color $color, --places $places, --live ${live:?}"
judge "a frame with --json to a plain one" "$(ratio "$plain" "$json")" 1.6
judge "a frame with --color to a plain one" "$(ratio "$plain" "$color")" 1.1
judge "a frame with --places to a plain one" "$(ratio "$plain" "$places")" 1.2
judge "a frame with --live to a plain one" "$(ratio "$plain" "$live")" 1.01
exit "$worst"
