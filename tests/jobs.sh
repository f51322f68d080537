#!/bin/bash
# Decodes recordings by many threads, and compares what comes with what comes without them.
#
#   tests/jobs.sh PROGRAM [TIMES [SEED]]      1,000 damaged recordings, and the seed 1, where they aren't said
#
# Recordings of scripts of both profiles, of both languages and with stamps are damaged: bytes are changed, stretches are cut out, moved and put in twice,
# zeros are put in and taken out. Half of them have up to 9,000 bytes, and half 20,000 to 400,000 with 6 to 60 wrongs, so that these stand in many blocks and
# at their ends. Each is decoded without `--jobs` and with it, N by chance from 1 to 8 or from 1 to 64, under options of printing by chance: the output, the
# status and the words are compared, all bytes. Beside them stand recordings of some mebibytes, which are read in several blocks; of a mebibyte behind 0 to 40
# bytes, which move the frames over the places where blocks end; with a piece longer than a block; and with no zero at all; and outputs that are closed, of
# which a front has to be written. Last, programs that do wrong stand in for the real one, and each is seen to be refused.
#
# With the same seed each recording is the same. Where there is no python3 the script is skipped. The last line is 'N passed, M failed'.

[ $# -ge 1 ] && [ $# -le 3 ] && [[ ${2-1} =~ ^[1-9][0-9]*$ ]] || { echo "usage: tests/jobs.sh PROGRAM [TIMES [SEED]]"; exit 2; }
. "$(dirname "$0")/runner.sh"
takes_program "$@"
needs python3
PYTHONDONTWRITEBYTECODE=1 python3 "$(dirname "$0")/jobs.py" "$program" "$work" "${2:-1000}" "${3:-1}"
