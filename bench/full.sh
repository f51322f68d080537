#!/bin/sh
# Counts the instructions that a frame of the full language costs in `decode --full`, with one argument of each of its kinds, beside one with a number.
#
#   bench/full.sh        at the repository's top, once ./defmtl has built the program; needs valgrind
#
# Each kind is counted at 512 and at 2,048 frames, and the difference is divided by the frames between them, so that starting costs fall away. Numbers and
# floats come by chance: numbers of 32 bits have ten digits, those of 64 bits thirteen, floats all that they have.

. "$(dirname "$0")/common.sh"
need valgrind

# script FORM ARGUMENT COUNT: so many statements of a text with this form; ARGUMENT is what awk makes each argument of
script() {
    printf 'language full\nring 65536\ns part defmt_prim {=u8}\ns value defmt_info value %s\n' "$1"
    awk -v count="$3" "BEGIN { srand(1); for (i = 0; i < count; i++) printf \"w 0 value %s\\n\", $2 }"
}

# frame FORM ARGUMENT: what a frame of it costs
frame() {
    for size in 512 2048; do
        script "$1" "$2" "$size" > "$work/script"
        "$program" record < "$work/script" > "$work/stream.$size" && "$program" table < "$work/script" > "$work/table.elf" || exit 1
    done
    small=$(counted decode --full --table "$work/table.elf" < "$work/stream.512") && large=$(counted decode --full --table "$work/table.elf" < "$work/stream.2048") || exit 1
    echo $(((large - small) / 1536))
}

small='sprintf("%d", 1000000000 + 1000000000 * rand())' large='sprintf("%.0f", 1000000000000 + 1000000000000 * rand())'
float='sprintf("%.9g", 2000 * rand() - 1000)' great='sprintf("%.17g", 2000 * rand() - 1000)' text='sprintf("\"NoAck at %04d\"", 10000 * rand())'
number=$(frame '{=u32}' "$small") && wide=$(frame '{=u64}' "$large") && date=$(frame '{=u32:iso8601s}' "$small") && fine=$(frame '{=u64:iso8601ms}' "$large") || exit 1
clock=$(frame '{=u64:tus}' "$large") && filled=$(frame '{=u32:012}' "$small") && single=$(frame '{=f32}' "$float") && double=$(frame '{=f64}' "$great") || exit 1
plain=$(frame '{=str}' "$text") && shown=$(frame '{=__internal_Debug}' "$text") && node=$(frame '{=?}' '"part(7)"') && sequence=$(frame '{=__internal_FormatSequence}' '"<part(7)>"') || exit 1
echo "instructions a frame: a number $number, of 64 bits $wide; a date $date, in milliseconds $fine; a clock in microseconds $clock; a width $filled"
echo "instructions a frame: an f32 $single, an f64 $double; a text $plain, a Debug text $shown; a Format value $node, a sequence of it alone $sequence"
judge "a date to a number" "$(ratio "$number" "$date")" 1.5
judge "a date in milliseconds to a number" "$(ratio "$wide" "$fine")" 1.5
judge "a clock in microseconds to a number" "$(ratio "$wide" "$clock")" 1.5
judge "instructions more of an f32" "$((single - number))" 4000
judge "instructions more of an f64" "$((double - wide))" 8000
exit "$worst"
