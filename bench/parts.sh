#!/bin/sh
# Counts the instructions that the parts of a statement's way cost, in the product's own `record` and `decode`, and holds two of them against what is
# due.
#
#   bench/parts.sh        at the repository's top, once ./defmtl has built the program; needs valgrind
#
# Each row is one function with all that it calls: what its calls cost together, divided by their number, over the script of `gen 4096`.
# The compiler puts a function that is called in one place into its caller, and then it has no count of its own. The two that are held:
#   from a statement to its frame     a pen's `step` of defmt_logger, less the sending: the message and its frame, and the mark on the tape
#   from a piece to its event         `hear_part` of defmt_listen, for each frame: the zeros, the code, the message and its line, which a plan makes in one
#                                     pass, and what is printed of it

. "$(dirname "$0")/common.sh"
need valgrind

# profile FILE WORD..: counts these words on the standard input into a file of callgrind
profile() {
    file=$1
    shift
    valgrind --tool=callgrind --callgrind-out-file="$file" "$program" "$@" > "$work/out" 2> "$work/log" || { echo "$* ended with a fault" >&2; exit 1; }
}

# calls FILE NAME: how often a function was called, and what a call cost on the average; nothing where it has no count
calls() {
    awk -v name="$2" '
        # cfn=(12) a::name, or cfn=(12) for a name that was given before; a generic function has a mark of its types behind its name
        function known(text) {
            number = text
            sub(/^[^(]*\(/, "", number)
            sub(/\).*/, "", number)
            if (text ~ /\) ./) { sub(/^[^)]*\) /, "", text); sub(/::<.*/, "", text); names[number] = text }
            return names[number]
        }
        /^fn=/ { known($0) }
        /^cfn=/ { called = known($0) }
        /^calls=/ {
            split($1, part, "=")
            getline
            if (called == name) { count += part[2]; cost += $NF }
        }
        END { if (count) printf "%d %d\n", count, cost / count }
    ' "$1"
}

# row FILE NAME: prints these of a function, and leaves the cost of a call in `cost`
row() {
    counts=$(calls "$1" "$2")
    cost=${counts#* }
    printf '%-44s %10s %10s\n' "$2" "${counts% *}" "${cost:-inlined}"
}

# due NAME VALUE MOST: judges a sum, where there is one
due() {
    if [ -n "$2" ]; then judge "$@"; else echo "$1: not counted"; worst=1; fi
}

generated 4096 > "$work/script"
"$program" table < "$work/script" > "$work/table.elf" && "$program" record < "$work/script" > "$work/stream" || exit 1
profile "$work/recorded" record < "$work/script"
profile "$work/decoded" decode --table "$work/table.elf" < "$work/stream"

printf '%-44s %10s %10s\n' function calls "a call"
row "$work/recorded" defmt_encode::framing::frame
row "$work/recorded" rtt_modes::modes::send_front; sending=$cost
row "$work/recorded" defmt_logger::logging::LoggingWorkEachStatement::step; step=$cost
row "$work/decoded" rzcobs_core::decoder::decode_front_to_end; frames=${counts% *}
row "$work/decoded" defmt_listen::part::hear_part; part=$cost parts=${counts% *}

due "instructions from a statement to its frame" "${step:+$((step - ${sending:-0}))}" 600
due "instructions from a piece to its event" "${part:+$((part * parts / frames))}" 1200
exit "$worst"
