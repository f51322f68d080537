#!/bin/bash
# Runs the program with a standard input, a standard output or a table file that fails, and checks its status, what it said and what it wrote.
#
#   tests/failing-calls.sh PROGRAM
#
# The input is a folder or closed; the output is a device that is always full, closed, a pipe that nobody reads any more, or a file that may have 1,024
# bytes; the table's file isn't there, is a folder, or has too long a name. So it is with each command that reads or writes. Then the order of two faults,
# outputs to which nothing is to be written, and faults that can't be told. The last line is 'N passed, M failed'.

. "$(dirname "$0")/runner.sh"
takes_program "$@"
cd "$work" || exit 2

# check WHAT STATUS SAID: the run that was made last ended with this status and said this
check() {
    is "$1" "$status $(head -c 200 said)" "$2 $3"
}

# wrote WHAT FILE: the run that was made last wrote just this
wrote() {
    if cmp -s written "$2"; then pass; else fail "$1: wrote $(stat -c %s written) bytes"; fi
}

defmtl() { timeout 60 "$program" "$@"; }

# ---- inputs on which each command writes more than 1,024 bytes: a script of 300 statements of one writer, and what comes of it

{ printf 'ring 64\nd 0 info\ns count defmt_info count {=u16}, and a text that is as long as this one\n'; for number in {1..20}; do echo "s s$number defmt_warn string $number"; done; } > script
for number in {1..300}; do echo "w 0 count $number"; done >> script
defmtl table < script > table.elf && defmtl record < script > recording || { echo "FAILED: there is no table or no recording"; exit 1; }
: > nothing

# an image of a memory in whose buffer the recording waits; le NUMBER: its four bytes, the lowest first
le() { printf "$(printf '\\x%02x' $(($1 & 255)) $(($1 >> 8 & 255)) $(($1 >> 16 & 255)) $(($1 >> 24)))"; }
size=$(stat -c %s recording)
{ printf 'SEGGER RTT\0\0\0\0\0\0'; le 1; le 0; le 0; le 0x20000030; le $((size + 1)); le "$size"; le 0; le 0; cat recording; printf '\0'; } > image

commands=('run' 'run --group' 'record' 'term' 'steer' 'table' 'print' 'gen 4096' 'decode --table table.elf' 'decode --jobs 3 --table table.elf'
    'dump --table table.elf')
input_of() { case $1 in decode*) echo recording ;; dump*) echo image ;; gen*) echo nothing ;; *) echo script ;; esac; }

# ---- the standard input

for words in "${commands[@]}"; do
    case $words in gen*) continue ;; esac
    defmtl $words < . > written 2> said; status=$?
    check "$words of a folder" 3 source; wrote "$words of a folder" nothing
    defmtl $words <&- > written 2> said; status=$?
    check "$words of a closed input" 3 source; wrote "$words of a closed input" nothing
done
defmtl gen 10 <&- > written 2> said; status=$?
check 'gen of a closed input, which it does not read' 0 ''

# ---- the standard output

for words in "${commands[@]}"; do
    input=$(input_of "$words")
    defmtl $words < "$input" > /dev/full 2> said; status=$?
    check "$words to a full device" 4 sink
    defmtl $words < "$input" >&- 2> said; status=$?
    check "$words to a closed output" 4 sink
    { sleep 1; defmtl $words < "$input" 2> said; echo $? > status; } | :
    status=$(cat status)
    check "$words to a pipe without a reader" 4 sink
    case $words in gen*) continue ;; esac
    defmtl $words < "$input" > whole 2> said; status=$?
    (trap '' XFSZ; ulimit -f 1; defmtl $words < "$input" > written 2> said_there; echo $? >&3) 3> status 2> /dev/null
    status=$(cat status)
    head -c 1024 whole > front
    cp said_there said
    check "$words to a file of at most 1,024 bytes" 4 sink; wrote "$words to a file of at most 1,024 bytes" front
done
defmtl run < nothing > /dev/full 2> said; status=$?
check 'run of an empty script, which writes nothing' 0 ''

# ---- the table's file

long=$(printf 'x%.0s' {1..300})
for words in decode 'decode --jobs 3'; do
    for name in missing.elf . "$long" missing/table.elf; do
        defmtl $words --table "$name" < recording > written 2> said; status=$?
        check "$words by ${name:0:20}" 7 shelf; wrote "$words by ${name:0:20}" nothing
    done
done

# ---- two faults, of which the first in the order of the work is told

defmtl decode --table missing.elf <&- > /dev/full 2> said; status=$?
check 'a missing table before a closed input' 7 shelf
defmtl run <&- > /dev/full 2> said; status=$?
check 'a closed input before a full output' 3 source
printf 'w 0 hi\n' | defmtl run > /dev/full 2> said; status=$?
check 'a refused script before a full output' 5 'script line 1 cause 2 inner 0'
printf 'mode skip\nd 0 warn\n' | defmtl steer > /dev/full 2> said; status=$?
check 'another mode before a full output' 5 'script line 1 cause 18 inner 0'
printf 'mode skip\nw 0 hi\n' | defmtl steer > written 2> said; status=$?
check 'a refused line before another mode' 5 'script line 2 cause 2 inner 0'; wrote 'a refused line before another mode' nothing
defmtl dump --table table.elf < nothing > /dev/full 2> said; status=$?
check 'a refused image before a full output' 10 'control cause 1 place 0'
defmtl frob <&- >&- 2> said; status=$?
check 'words before all' 2 words

# ---- a fault that can't be told

: > said
defmtl run <&- > written 2>&-; status=$?
check 'a closed input, and a closed standard error' 3 ''
defmtl run < script > /dev/full 2> /dev/full; status=$?
check 'a full output, and a full standard error' 4 ''

counts
