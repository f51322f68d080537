#!/bin/sh
# Measures how many bytes a second go through a word ring and through a queue ring, from one thread to another.
#
#   bench/rings.sh [ROUNDS]        at the repository's top; it builds the program ring_bench where there is none, for which it needs `rt`
#
# Both rings are tried in the same run, one after the other, in so many rounds (40 where no number is given), of which the least time
# counts. A row is a ring's size and the bytes of a frame. RING_BENCH names another program than crates/ring_bench/out/ring_bench.

top=$(cd "$(dirname "$0")/.." && pwd) || exit 1
program=${RING_BENCH:-$top/crates/ring_bench/out/ring_bench}
work=$(mktemp -d) || exit 1
trap 'rm -rf "$work"' EXIT
export LC_ALL=C

if [ ! -x "$program" ]; then
    command -v rt > /dev/null || { echo "there is no $program and no command rt to build it with"; exit 1; }
    (cd "$top/crates/ring_bench" && rt run -- 64 16 1 1) > "$work/log" 2>&1 || { tail -n 5 "$work/log"; exit 1; }
fi

# row SIZE FRAME COUNT: one row of the table, by COUNT frames a round
row() {
    "$program" "$1" "$2" "$3" "$rounds" timed > "$work/times" || { echo "ring_bench ended with status $?" >&2; return 1; }
    awk '
        { bytes = $4; if (!($1 in least) || $5 < least[$1]) least[$1] = $5 }
        END {
            word = bytes / least["word"] * 1e9
            queue = bytes / least["queue"] * 1e9
            printf "%8d %8d %18.0f %18.0f %10.2f\n", $2, $3, word, queue, word / queue
        }' "$work/times"
}

rounds=${1:-40}
printf '%8s %8s %18s %18s %10s\n' size frame "word: bytes/s" "queue: bytes/s" word/queue
row 1024 16 20000 && row 1024 2000 2000 && row 65536 16 50000 && row 65536 2000 10000
