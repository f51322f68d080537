#!/bin/bash
# Gives the program scripts, tables and recordings that are made by chance or changed by chance, and checks that each call ends as it may.
#
#   tests/fuzz.sh PROGRAM [TIMES [SEED]]      10,000 inputs, and the seed 1, where they aren't said
#
# Each input is of one of three kinds, and goes to one call of the program, with standard input and files as they are meant to be read:
#   script      to `run`, `run --group`, `record`, `term`, `steer`, `table` or `print`. The status is 0, and nothing is said; or 5, with nothing written and the words of a
#               refused line that is there. About a fourth go to `print` too: it has to refuse the same line in the same words, but to take a script that
#               `steer` refuses for its mode, and to write what `run --group` writes in blocking mode without stamps
#   table       to `decode`, with a whole recording, or with frames for the indexes from 0 on. The status is 0 or 9, as for a recording; or 6, with nothing written and
#               the words of a refused file
#   recording   to `decode`, with a table of all kinds of strings. The status is 0, and nothing is said; or 9, and the number of faults that is said is that
#               of the lines that tell one
# Any other status is a failure, want of memory and a signal among them, and so is a call that takes more than a minute. Last, programs that crash, hang,
# say nothing or another status, or write although they refuse, stand in for the real one, and each is seen to be refused.
#
# With the same seed each input is the same. Where there is no python3 the script is skipped. The last line is 'N passed, M failed'.

[ $# -ge 1 ] && [ $# -le 3 ] && [[ ${2-1} =~ ^[1-9][0-9]*$ ]] || { echo "usage: tests/fuzz.sh PROGRAM [TIMES [SEED]]"; exit 2; }
. "$(dirname "$0")/runner.sh"
takes_program "$@"
needs python3
PYTHONDONTWRITEBYTECODE=1 python3 "$(dirname "$0")/fuzz.py" "$program" "$work" "${2:-10000}" "${3:-1}"
