#!/bin/bash
# Tries what the one header of C that was here before device/ did wrong: what the library of device/ has to do right, and that header, taken from the
# repository's history, does wrong still, so that each check is seen to fail.
#
#   tests/device-defects.sh PROGRAM
#
# 1 a missing argument printed a zero; 2 two statements of one text on a line didn't assemble; 3 C++ didn't compile; 4 quotes and backslashes gave assembler errors
# or a file that no host reads; 5 frames were made with interrupts off; 6 a read offset out of range, which a faulty host writes, led it out of its buffer.
# It needs arm-none-eabi-gcc and g++ with newlib, and qemu-system-arm (Debian: gcc-arm-none-eabi, libnewlib-arm-none-eabi, qemu-system-arm), and says
# 'skipped: ..' where they are missing, or where the history isn't there. The last line is 'N passed, M failed'.
. "$(dirname "$0")/runner.sh"
takes_program "$@"
needs arm-none-eabi-gcc arm-none-eabi-g++ qemu-system-arm od nm git
echo '#include <string.h>' | arm-none-eabi-gcc -E - > /dev/null 2>&1 || { skip "all: there are no headers of newlib, which the package libnewlib-arm-none-eabi brings"; counts; }
cd "$work" || exit 2
# the example's linker script, with memory behind the ring that nobody writes
sed 's/^    \.bss (NOLOAD)/    .ring (NOLOAD) : { *(.bss.defmtl_ring) behind_ring = .; . += 256; behind_ring_end = .; } > ram\n&/; s/bss_start = \.;/bss_start = ADDR(.ring); &/; s/bss_start = ADDR(.ring); bss_start = \.;/bss_start = ADDR(.ring);/' \
    "$top/device/examples/firmware.ld" > defects.ld
grep -q behind_ring defects.ld || fail "the linker script has memory behind the ring"

# build FOLDER WHICH: the firmware of that defect, with the library of a folder
build() {
    local flags="-mcpu=cortex-m3 -mthumb -Os -fdata-sections -ffreestanding -DDEFMTL_RING=32 -DAT=$2 -I$1" core=()
    [ "$2" -eq 6 ] || flags="${flags/RING=32/RING=256}"
    [ -f "$1/defmtl.c" ] && core=("$1/defmtl.c")
    rm -f one.elf
    if [ "$2" -eq 3 ]; then
        arm-none-eabi-g++ $flags -std=c++17 -fno-exceptions -x c++ -c "$top/tests/device/defects.c" -o one.o
    else
        arm-none-eabi-gcc $flags -std=gnu11 -c "$top/tests/device/defects.c" -o one.o
    fi > said 2>&1 &&
        arm-none-eabi-gcc $flags -std=gnu11 -nostartfiles -nostdlib -L"$top/device" -Wl,-T,defects.ld -Wl,--build-id=none -o one.elf one.o "${core[@]}" \
            "$top/device/examples/startup.c" -lc -lgcc >> said 2>&1
}

# value NAME: the variable in the saved memory
value() { od -An -tu4 -j $((0x$(nm one.elf | awk -v name="$1" '$3 == name { print $1 }') - 0x20000000)) -N 4 ram.bin | tr -d ' '; }

# run: runs the firmware until it has ended, and saves its memory
run() {
    local seconds
    for seconds in 1 4 15; do
        rm -f ram.bin
        {
            sleep $seconds
            echo "pmemsave 0x20000000 0x10000 \"$work/ram.bin\""
            echo quit
        } | timeout 60 qemu-system-arm -M lm3s6965evb -display none -serial none -monitor stdio -kernel one.elf > said 2>&1
        [ -s ram.bin ] && [ "$(value ended)" = 1 ] && return
    done
    return 1
}

# prints LINE..: whether a host reads just these lines of the memory
prints() { "$program" dump --table one.elf < ram.bin > got 2>&1 && [ "$(cat got)" = "$(printf '%s\n' "$@")" ]; }

# right FOLDER WHICH: whether the library of a folder does it right
right() {
    case $2 in
        1) ! build "$1" 1 && grep -q 'differ in number' said ;;
        2) build "$1" 2 && run && prints '0.000000 INFO  line 1' '0.000000 INFO  line 2' ;;
        3) build "$1" 3 && run && prints '0.000000 INFO  C++ 3' ;;
        4) build "$1" 4 && run && prints '0.000000 INFO  say "yes" \ no' ;;
        5) build "$1" 5 && run && prints '0.000000 INFO  five 5' && [ "$(value stamps_with_interrupts_off)" -eq 0 ] ;;
        6) build "$1" 6 && run && [ "$(value harmed)" -eq 0 ] ;;
    esac
}

names=("" "a missing argument is refused" "two statements of one text stand on a line" "C++ compiles, and is read" "quotes and backslashes are read as they are"
    "a frame is made with interrupts on" "a host's wrong read offset leads no copy out of the ring")
for which in 1 2 3 4 5 6; do
    if right "$top/device" $which; then pass; else fail "${names[which]}"; tail -n 5 said; fi
done

mkdir before
commit=$(git -C "$top" log --diff-filter=D --format=%H -n 1 -- examples/firmware/defmtl.h 2> said) && [ -n "$commit" ] &&
    git -C "$top" show "$commit^:examples/firmware/defmtl.h" > before/defmtl.h 2> said || { skip "the header that was here before isn't in the repository's history"; counts; }
for which in 1 2 3 4 5 6; do
    if right "$work/before" $which; then fail "${names[which]}: the header that was here before passes"; else pass; fi
done
counts
