#!/bin/sh
# Counts the instructions that a statement costs in `record`, `print`, `run` and `decode`, and those with which `decode` starts, and holds them against
# what is due.
#
#   bench/statements.sh        at the repository's top, once ./defmtl has built the program; needs valgrind
#
# Each command is counted at 1,024 and at 4,096 statements of one script, and the difference is divided by the statements between them, so
# that starting costs fall away. The script is that of `gen`: five strings with integers, a text, bytes and a truth value, a stamp, and four
# writers. Valgrind runs one thread at a time, so the counts of `run` and `record` have the turns of threads that wait in them, and vary: of three counts the
# least is taken, and on a machine with much other work they are too high all the same.

. "$(dirname "$0")/common.sh"
need valgrind

for size in 1024 4096; do
    generated "$size" > "$work/script.$size"
    "$program" record < "$work/script.$size" > "$work/stream.$size" || exit 1
    "$program" table < "$work/script.$size" > "$work/table.elf" || exit 1
done

# least WORD..: the least of some counts of a command on the standard input, which is a file; of a command without threads one is enough
least() {
    least=
    for round in 1 2 3; do
        [ "$round" = 1 ] || [ "$1" = record ] || [ "$1" = run ] || break
        each=$(counted "$@" < /dev/stdin) || exit 1
        [ -n "$least" ] && [ "$least" -le "$each" ] || least=$each
    done
    echo "$least"
}

printf '%-8s %14s %14s %14s\n' command "at 1,024" "at 4,096" "a statement"
for command in record print run decode; do
    input=$work/script
    set -- "$command"
    [ "$command" != decode ] || { input=$work/stream && set -- decode --table "$work/table.elf"; }
    small=$(least "$@" < "$input.1024") && large=$(least "$@" < "$input.4096") || exit 1
    each=$(((large - small) / 3072))
    printf '%-8s %14d %14d %14d\n' "$command" "$small" "$large" "$each"
    case $command in
        record) record=$each ;;
        print) print=$each ;;
        run) run=$each ;;
        decode) decode=$each ;;
    esac
done
start=$(counted decode --table "$work/table.elf" < /dev/null) || exit 1
judge "instructions of record a statement" "$record" 1800
judge "instructions of print a statement" "$print" 1560
judge "instructions of run a statement" "$run" 3300
judge "instructions of decode a frame" "$decode" 750
judge "instructions of decode of nothing" "$start" 500000
exit "$worst"
