#!/bin/bash
# Builds the firmware of device/examples, runs it on an emulated Cortex-M, takes the memory, and compares what `dump` prints of
# it, and `decode` of the bytes in the ring, with the lines that the sources name beside each message. This is done in both
# profiles, each also with so little room for a message that one is dropped, which profile 2 alone tells as a gap. A
# firmware whose files are of different profiles is refused.
#
#   tests/firmware.sh PROGRAM
#
# It needs make, arm-none-eabi-gcc with newlib and qemu-system-arm. The last line is 'N passed, M failed'.
. "$(dirname "$0")/runner.sh"
takes_program "$@"
needs make arm-none-eabi-gcc qemu-system-arm od
sources=$top/device

# number PLACE: the four bytes at a place of the image as a number
number() { od -An -tu4 -j "$1" -N 4 "$work/ram.bin" | tr -d ' '; }

# take_image: runs the firmware for a moment, and saves the memory as ram.bin; the emulator is told to stop
take_image() {
    {
        sleep "$1"
        echo "pmemsave 0x20000000 0x10000 \"$work/ram.bin\""
        echo quit
    } | timeout 60 qemu-system-arm -M lm3s6965evb -display none -serial none -monitor stdio -kernel "$work/out/firmware.elf" > "$work/said" 2>&1
}

# has_all DUE: whether the image has the last message, which is sent before the firmware waits
has_all() { "$program" dump --table "$work/out/firmware.elf" --old < "$work/ram.bin" 2> /dev/null | grep -qxF "$(tail -n 1 "$1")"; }

# try_firmware WHAT DUE VARIABLE..: builds the firmware behind the one that is there, with variables of make, and runs it
try_firmware() {
    local what=$1 due=$2 wait block start write read
    shift 2
    if ! make -s firmware "$@" > said 2>&1; then
        fail "$what: the firmware is built"
        tail -n 5 said
        return
    fi
    for wait in 1 3 9; do
        rm -f ram.bin
        take_image $wait
        [ -s ram.bin ] && has_all "$due" && break
    done
    [ -s ram.bin ] || { fail "$what: the emulator saves the memory"; tail -n 5 said; return; }

    "$program" dump --table out/firmware.elf < ram.bin > got 2>&1
    same "$what: dump of the memory" "$due" got

    # the control block by its ID, then the up-buffer's place and its two offsets
    block=$(grep -obUaP 'SEGGER RTT\0\0\0\0\0\0' ram.bin | head -n 1 | cut -d : -f 1)
    start=$(($(number $((block + 28))) - 0x20000000)) write=$(number $((block + 36))) read=$(number $((block + 40)))
    tail -c +$((start + read + 1)) ram.bin | head -c $((write - read)) > recording.bin
    "$program" decode --table out/firmware.elf < recording.bin > got 2>&1
    same "$what: decode of the bytes in the ring" "$due" got

    # nothing of the strings is in the device's memories
    arm-none-eabi-objcopy -O binary out/firmware.elf flash.bin
    if grep -qaF 'retries' flash.bin ram.bin; then fail "$what: no format string is on the device"; else pass "$what: no format string is on the device"; fi
}

cp -r "$sources"/*.[chl]* "$sources/Makefile" "$sources/examples" "$work" && cd "$work" || exit 2
sed -n 's/.*\/\/= //p' examples/firmware.c | sort -n > due
# the println has no stamp, and is the last line
{ grep -v '^done' due; grep '^done' due; } > due.0 && mv due.0 due
# the message with 'path' has 26 bytes or, in profile 2, 28, and no other has more than 24
sed '/path/d; s/done, 0/done, 1/' due > due.1
sed 's/.*path.*/-- gap 1/; s/done, 0/done, 1/' due > due.2
for profile in 1 2; do
    try_firmware "profile $profile" due PROFILE=$profile
    try_firmware "profile $profile, one message dropped" due.$profile PROFILE=$profile CC='arm-none-eabi-gcc -DDEFMTL_MESSAGE=24'
done

echo '#include "defmtl.h"' > other.c
echo 'table elf cause 9 place 0' > due.mixed
if arm-none-eabi-gcc -mcpu=cortex-m3 -mthumb -c other.c > said 2>&1 && make -s firmware PROFILE=2 CC='arm-none-eabi-gcc other.o' >> said 2>&1; then
    "$program" decode --table out/firmware.elf < recording.bin > got 2>&1
    same "files of both profiles: refused" due.mixed got
else
    fail "files of both profiles: the firmware is built"
    tail -n 5 said
fi
counts
