#!/bin/bash
# Compiles the code blocks of device/README.md for a host, and of device/ports/README.md for Zephyr, FreeRTOS and Arduino, these against stand-in headers;
# runs them, these on an emulated Cortex-M3, and compares the lines that a host reads: of the first two by `dump`, of the third by `decode` of its serial port.
#
#   tests/device-ports.sh PROGRAM
#
# It needs arm-none-eabi-gcc and g++ with newlib, and qemu-system-arm (Debian: gcc-arm-none-eabi, libnewlib-arm-none-eabi, libstdc++-arm-none-eabi-newlib,
# qemu-system-arm), and says 'skipped: ..' where they are missing. The last line is 'N passed, M failed'.
. "$(dirname "$0")/runner.sh"
takes_program "$@"
needs arm-none-eabi-gcc arm-none-eabi-g++ qemu-system-arm od
device=$top/device stand_in=$top/tests/device/stand_in
echo '#include <string.h>' | arm-none-eabi-gcc -E - > /dev/null 2>&1 || { skip "all: there are no headers of newlib, which the package libnewlib-arm-none-eabi brings"; counts; }
cd "$work" || exit 2
mkdir -p src && cp -r "$device" src/defmtl

# block HEADING LANGUAGE [FILE]: the first code block of that language below the heading
block() { awk -v heading="## $1" -v fence="\`\`\`$2" 'index($0, "## ") == 1 { here = index($0, heading) == 1 } in_it && /^```$/ { exit } in_it { print } here && $0 == fence { in_it = 1 }' "$device/${3:-ports/README.md}"; }

# build NAME FLAG..: links NAME.c or NAME.cc with the library
build() {
    local name=$1
    shift
    local both="-mcpu=cortex-m3 -mthumb -Os -Wall -Wextra -Wconversion -Wpedantic -Werror -ffreestanding -Isrc/defmtl -I$stand_in -I."
    local link="-nostartfiles -nostdlib -Lsrc/defmtl -Wl,-T,src/defmtl/examples/firmware.ld -Wl,--build-id=none"
    if [ -f "$name.cc" ]; then
        arm-none-eabi-g++ $both -std=gnu++17 -fno-exceptions -fno-rtti -fno-threadsafe-statics "$@" -c "$name.cc" -o "$name.o" || return
    else
        arm-none-eabi-gcc $both -std=c11 "$@" -c "$name.c" -o "$name.o" || return
    fi
    arm-none-eabi-gcc $both -std=c11 "$@" $link -o "$name.elf" "$name.o" src/defmtl/defmtl.c src/defmtl/examples/startup.c -lc -lgcc
}

# dumped NAME: what `dump` prints of the firmware's memory, once it prints something
dumped() {
    local seconds
    for seconds in 1 4 15; do
        rm -f ram.bin
        {
            sleep $seconds
            echo "pmemsave 0x20000000 0x10000 \"$work/ram.bin\""
            echo quit
        } | timeout 60 qemu-system-arm -M lm3s6965evb -display none -serial none -monitor stdio -kernel "$1.elf" > said 2>&1
        "$program" dump --table "$1.elf" < ram.bin > got 2>&1 && [ -s got ] && break
    done
    cat got
}

# the first line on a host, by the page's own commands
block 'The first line' c README.md > main.c
awk '/^    gcc / { sub(/^    /, ""); print; exit }' "$device/README.md" > commands
ln -s src/defmtl defmtl
if command -v gcc > /dev/null; then
    if [ "$(grep -c '' main.c)" -le 10 ] && sh ./commands > said 2>&1 && [ "$(./hello | "$program" decode --table hello)" = '0.000000 INFO  hello 1' ]; then
        pass
    else
        fail "the first line on a host"
        tail -n 5 said
    fi
else
    skip "the first line on a host" gcc
fi

block Zephyr c > zephyr.c
block FreeRTOS c > freertos.c
block Arduino cpp > arduino.cc
echo 'int main() { setup(); for (;;) loop(); }
extern "C" unsigned long micros(void) { return 5; }' >> arduino.cc
for row in 'zephyr|-DDEFMTL_PORT_FILE="ports/zephyr.h"|0.000300 INFO  Zephyr says 1' \
    'freertos|-DDEFMTL_PORT_FILE="ports/freertos.h" -DDEFMTL_STAMP="{=u32:ms}"|0.003 INFO  FreeRTOS says 2'; do
    IFS='|' read -r name flags due <<< "$row"
    if build "$name" $flags > said 2>&1 && [ "$(dumped "$name")" = "$due" ]; then pass; else fail "the recipe for $name"; tail -n 5 said; cat got; fi
done

if build arduino > said 2>&1; then
    timeout 20 qemu-system-arm -M lm3s6965evb -display none -monitor none -serial stdio -kernel arduino.elf < /dev/null 2> said > port &
    emulator=$!
    for _ in $(seq 100); do
        [ -s port ] && break
        sleep 0.1
    done
    sleep 0.5
    kill $emulator 2> /dev/null
    wait $emulator 2> /dev/null
    if [ "$("$program" decode --table arduino.elf < port 2>&1)" = '0.000005 INFO  Arduino says 3' ]; then pass; else fail "the recipe for arduino"; fi
else
    fail "the recipe for arduino is compiled"
    tail -n 5 said
fi

# (Zephyr hands the linker script's lines to the preprocessor)
if arm-none-eabi-gcc -E -P -x c "$device/defmtl.ld" -o src/defmtl/defmtl.ld > said 2>&1 && build zephyr -DDEFMTL_PORT_FILE='"ports/zephyr.h"' > said 2>&1 &&
    [ "$(dumped zephyr)" = '0.000300 INFO  Zephyr says 1' ]; then pass; else fail "the linker's lines behind the preprocessor"; tail -n 5 said; fi
counts
