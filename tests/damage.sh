#!/bin/bash
# Damages recordings again and again, decodes each, and compares what comes with what a second reading of the formats tells.
#
#   tests/damage.sh PROGRAM [TIMES [SEED]]      10,000 times, and the seed 1, where they aren't said
#
# tests/formats.py reads frames, messages and lines by docs/FORMATS.md, apart from the program. By it four scripts are made, of statements by chance, one of them of profile 2:
# the program's recording of each has to be the frames of these statements, and what it prints their lines. A recording, or a few of its frames, is then
# damaged one to six times: bits and bytes are changed, stretches are cut out, at the ends too, moved, put in twice, or put in from elsewhere, zeros are put
# in or taken out, and messages are changed and framed again. Of what `decode` answers the output, the status and the words are compared, all bytes: each
# frame that is whole tells the line of its statement, in its place, and each other piece, front and tail what docs/FORMATS.md says of it. The first
# recording has a piece of each cause. Last, programs that do wrong stand in for the real one, as one that loses a line and one that tells a line of a
# damaged piece, and each is seen to be refused.
#
# With the same seed each recording is the same. Where there is no python3 the script is skipped. The last line is 'N passed, M failed'.

[ $# -ge 1 ] && [ $# -le 3 ] && [[ ${2-1} =~ ^[1-9][0-9]*$ ]] || { echo "usage: tests/damage.sh PROGRAM [TIMES [SEED]]"; exit 2; }
. "$(dirname "$0")/runner.sh"
takes_program "$@"
needs python3
PYTHONDONTWRITEBYTECODE=1 python3 "$(dirname "$0")/damage.py" "$program" "$work" "${2:-10000}" "${3:-1}"
