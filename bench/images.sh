#!/bin/sh
# Measures `dump` of large images: the instructions of the search, the memory beside the image, and core files with as many headers as there can be.
#
#   bench/images.sh        at the repository's top, once ./defmtl has built the program; needs valgrind, GNU time and python3
#
# The images are zeros, or bytes by chance, with one control block at the end, whose buffer holds a few frames, or IDs alone. Instructions are counted
# at 16 and at 64 MiB, and their difference is divided by the bytes between them. Peak memory is that of 256 MiB, the longest image that is read, beside
# its bytes. The core files have 16,383 and 65,535 program headers that all show the same 16 MiB.

. "$(dirname "$0")/common.sh"
need valgrind time python3

generated 16 > "$work/script"
"$program" table < "$work/script" > "$work/table.elf" && "$program" record < "$work/script" > "$work/frames" || exit 1

# image KIND BYTES [HEADERS]: an image of so many bytes: zeros or chance with one block at its end, or IDs alone; bare, or in a core file
image() {
    python3 - "$work/frames" "$@" << 'PYTHON'
import random, struct, sys
frames, kind, size = open(sys.argv[1], "rb").read(), sys.argv[2], int(sys.argv[3])
headers = int(sys.argv[4]) if len(sys.argv) > 4 else 0
identity = b"SEGGER RTT" + bytes(6)
behind = 52 + 32 * headers if headers else 0
size -= behind
block = identity + struct.pack("<2I6I", 1, 0, 0, 0x20000000 + size - len(frames) - 16, len(frames) + 16, len(frames), 0, 0) + frames + bytes(16)
free = size - len(block)
memory = {"zeros": lambda: bytes(free) + block, "chance": lambda: random.Random(1).randbytes(free) + block, "ids": lambda: identity * (size // 16)}[kind]()
if headers:
    head = b"\x7fELF" + bytes([1, 1, 1]) + bytes(9) + struct.pack("<HHIIIIIHHHHHH", 4, 40, 1, 0, 52, 0, 0, 52, 32, headers, 0, 0, 0)
    sys.stdout.buffer.write(head + struct.pack("<8I", 1, behind, 0x20000000, 0, len(memory), len(memory), 6, 4) * headers)
sys.stdout.buffer.write(memory)
PYTHON
}

# dumped IMAGE [STATUS]: how many instructions `dump` of it executes, which ends with the status, or else with 0
dumped() {
    valgrind --tool=callgrind --callgrind-out-file=/dev/null "$program" dump --table "$work/table.elf" < "$1" > "$work/out" 2> "$work/log"
    [ $? -eq "${2:-0}" ] || { echo "dump ended with another status: $(tail -n 2 "$work/log")" >&2; exit 1; }
    sed -n 's/.*Collected : \([0-9]*\).*/\1/p' "$work/log"
}

between=$((48 * 1048576))
for kind in zeros chance ids; do
    due=0
    [ "$kind" != ids ] || due=10
    image "$kind" $((16 * 1048576)) > "$work/small" && image "$kind" $((64 * 1048576)) > "$work/large" || exit 1
    small=$(dumped "$work/small" "$due") && large=$(dumped "$work/large" "$due") || exit 1
    echo "$kind: $small instructions at 16 MiB, $large at 64 MiB"
    each=$(ratio "$between" $((large - small)))
    judge "instructions a byte of an image of $kind" "$each" 10
done

image zeros 268435456 > "$work/longest" || exit 1
all=$(measured 1 1 "$work/longest" dump --table "$work/table.elf") || exit 1
echo "at 256 MiB: ${all% *} seconds, peak memory ${all#* } KiB"
judge "KiB above an image of 256 MiB" $((${all#* } - 262144)) 8192
rm "$work/longest"

for kind in zeros ids; do
    image "$kind" 16777216 16383 > "$work/small" && image "$kind" 16777216 65535 > "$work/large" || exit 1
    small=$(dumped "$work/small" 10) && large=$(dumped "$work/large" 10) || exit 1
    echo "core files of $kind: $small instructions with 16,383 headers, $large with 65,535"
    judge "$kind: four times the headers" "$(ratio "$small" "$large")" 4.2
done
exit "$worst"
