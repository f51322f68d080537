#!/bin/bash
# Tells how many milliseconds of processor time a compiler takes for a statement of the device's library, one with two numbers and one with three arguments
# of mixed kinds, and holds them against what is due: the difference of two files, one with a hundred such statements and one with none, each in the least of
# nine rounds.
#
#   bench/device.sh        on an idle machine; needs arm-none-eabi-gcc with g++ and newlib, and clang
set -u
device=$(realpath "$(dirname "$0")/../device") || exit 1
work=$(mktemp -d) || exit 1
trap 'rm -rf "$work"' EXIT
cd "$work" || exit 1
export LC_ALL=C
worst=0
for each in arm-none-eabi-gcc arm-none-eabi-g++ clang clang++; do
    command -v $each > /dev/null || { echo "there is no $each" >&2; exit 1; }
done

# two COUNT, mixed COUNT: a file with so many statements with two numbers, or of three arguments of mixed kinds
two() {
    echo '#include "defmtl.h"'
    seq "$1" | awk '{ printf "void f%d(uint8_t a, uint32_t b); void f%d(uint8_t a, uint32_t b) { LOG_INFO(\"speed {=u8:#04x} at {=u32}\", a, b); }\n", $1, $1 }'
}
mixed() {
    echo '#include "defmtl.h"
struct point { int16_t x, y; };
DEFMTL_FORMAT(struct point, point, "({=i16}, {=i16})", self->x, self->y)
extern struct point place; extern const char *name; extern const uint8_t *bytes; extern uint8_t mac[4], byte; extern uint16_t word; extern float speed;'
    seq "$1" | awk 'BEGIN {
        say[0] = "\"motor {=str} at {=u16} rpm, hot {=bool}\", name, word, byte > 3"
        say[1] = "\"frame {=[u8; 4]:02x} of {=u8} took {=u32:us}\", mac, byte, 1000u"
        say[2] = "\"point {=?} and {=i16}, {=[u8]}\", FMT(point, &place), place.x, SLICE(bytes, 3)"
        say[3] = "\"status {0=8..12:#06b} of {0=0..16:#06x}, {1=f32} at {2=istr}\", word, speed, ISTR(\"home\")"
    } { printf "void f%d(void); void f%d(void) { LOG_INFO(%s); }\n", $1, $1, say[$1 % 4] }'
}
two 0 > none.two
two 100 > some.two
mixed 0 > none.mixed
mixed 100 > some.mixed

# spent WORD..: the compiler's seconds
spent() { { TIMEFORMAT=%U; time "$@" -o x.o > said 2>&1; } 2>&1 | tail -n 1; }
least() { awk "BEGIN { print $1 < $2 ? $1 : $2 }"; }
declare -A words=([two]="with two numbers" [mixed]="with three arguments of mixed kinds")

arm='-mcpu=cortex-m3 -mthumb' other='--target=arm-none-eabi -mcpu=cortex-m3 -ffreestanding'
for row in "c arm-none-eabi-gcc $arm -std=c11" "c clang $other -std=c11" "c++ arm-none-eabi-g++ $arm -std=c++17" "c++ clang++ $other -std=c++17"; do
    read -r language compiler flags <<< "$row"
    read -r -a flags <<< "$flags"
    for kind in two mixed; do
        before=999 after=999
        for round in 1 2 3 4 5 6 7 8 9; do
            took=$(spent $compiler -x $language "${flags[@]}" -Os -I"$device" -c none.$kind) && before=$(least "$took" "$before")
            took=$(spent $compiler -x $language "${flags[@]}" -Os -I"$device" -c some.$kind) && after=$(least "$took" "$after")
        done
        awk -v took="$(awk "BEGIN { print ($after - $before) * 10 }")" -v what="$language by $compiler, ${words[$kind]}" 'BEGIN {
            printf "milliseconds to compile a statement, %s: %.1f, at most 8 is due: %s\n", what, took, took <= 8 ? "passed" : "failed"
            exit took <= 8 ? 0 : 1
        }' || worst=1
    done
done
exit $worst
