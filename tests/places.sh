#!/bin/bash
# Makes ELF files with format strings by rustc, GCC and Clang, each with debug information of DWARF 4 and 5, and sees which places tools/places finds in
# them: by the keys `file` and `line` of a string's name, as the C library of device/ writes them, and by the debug information.
#
#   tests/places.sh [PROGRAM]     with the program the places file is used too
#
# It needs python3-pyelftools, and uses rustc, gcc, clang, ld, ld.lld and arm-none-eabi-gcc where they are installed. The last line is 'N passed, M failed'.
. "$(dirname "$0")/runner.sh"
[ $# -eq 0 ] || takes_program "$@"
needs python3 ld
if [ -z "$(python3 -c 'import elftools; print(1)' 2> /dev/null)$(/usr/bin/python3 -c 'import elftools; print(1)' 2> /dev/null)" ]; then
    skip 'all of tests/places.sh' python3-pyelftools
    counts
fi
cd "$work" && mkdir -p src || exit 2

# The strings stand at 1 and behind; their section takes no memory.
cat > defmt.ld << 'SCRIPT'
SECTIONS {
    .text : { *(.text .text.*) }
    .data : { *(.data .data.* .rodata .rodata.*) }
    .defmt 1 (INFO) : { . = 1; *(.defmt.*) }
}
SCRIPT

# As Rust's defmt has it: each statement has a variable of its own, whose name for the linker is the string's.
cat > src/main.rs << 'RUST'
#![no_std]
mod motor;

#[unsafe(no_mangle)]
pub extern "C" fn _start() -> usize {
    let hello = {
        #[unsafe(link_section = ".defmt.info.1")]
        #[unsafe(export_name = r#"{"package":"app","tag":"defmt_info","data":"hello","disambiguator":"1","crate_name":"app"}"#)]
        static DEFMT_LOG_STATEMENT: u8 = 0;
        &DEFMT_LOG_STATEMENT as *const u8 as usize
    };
    hello | motor::turn()
}
RUST
cat > src/motor.rs << 'RUST'
pub fn turn() -> usize {
    #[unsafe(link_section = ".defmt.error.2")]
    #[unsafe(export_name = r#"{"package":"app","tag":"defmt_error","data":"stuck at {=u8}","disambiguator":"2","crate_name":"app"}"#)]
    static DEFMT_LOG_STATEMENT: u8 = 0;
    &DEFMT_LOG_STATEMENT as *const u8 as usize
}
RUST
cat > rust.due << 'DUE'
hello src/main.rs:9
stuck at {=u8} src/motor.rs:4
DUE

# The same in C, of variables in a file and in a function, with a header that has a string too. (GCC hands a name to the assembler as it is.)
cat > src/own.h << 'C'
STRING(3, "defmt_error", "stuck")
C
cat > src/main.c << 'C'
#ifdef __clang__
#define Q "\""
#define NAMED(name) __asm__(name)
#else
#define Q "\\\""
#define NAMED(name) __asm__("\"" name "\"")
#endif
#define NAME(n, tag, text) "{" Q "package" Q ":" Q "app" Q "," Q "tag" Q ":" Q tag Q "," Q "data" Q ":" Q text Q "," Q "disambiguator" Q ":" Q #n Q "}"
#define STRING(n, tag, text) static GLOBAL_STRING(n, tag, text)
#define GLOBAL_STRING(n, tag, text) const char defmtl_entry_##n NAMED(NAME(n, tag, text)) __attribute__((section(".defmt." #n), used)) = 0;
#include "own.h"

STRING(1, "defmt_info", "hello")
const char *_start(void) {
    STRING(2, "defmt_warn", "warm")
    return &defmtl_entry_2;
}
C
cat > c.due << 'DUE'
hello src/main.c:13
stuck src/own.h:1
warm src/main.c:15
DUE

# texts ELF: the places of an ELF file, each behind its string's text in place of its index
texts() {
    "$top/tools/places" "$1" > places 2> said || return
    readelf -sW "$1" | sed -n 's/^ *[0-9]*: \([0-9a-f]*\) .*"data":"\([^"]*\)".*/\1 \2/p' | while read -r index text; do
        sed -n "s/^$((16#$index)) /$text /p" places
    done | sort
}

# found WHAT ELF DUE: the places are those
found() {
    texts "$2" > got
    sort "$3" > due
    same "$1" due got
    is "$1: nothing is told" "$(< said)" ''
}

linkers=(ld)
! can 'files linked by ld.lld' ld.lld || linkers+=(ld.lld)

# link WHAT DUE OBJECT: links by each linker, and looks at the places
link() {
    local linker
    for linker in "${linkers[@]}"; do
        if "$linker" -T defmt.ld -o "$linker.elf" "$3" 2> said; then found "$1, $linker" "$linker.elf" "$2"; else fail "$1: $linker links: $(< said)"; fi
    done
}

for version in 4 5; do
    if can "Rust, DWARF $version" rustc; then
        if rustc --edition 2024 --crate-type lib --crate-name app --emit obj -C panic=abort -g -C dwarf-version=$version -o rust.o src/main.rs 2> said; then
            link "Rust, DWARF $version" rust.due rust.o
        else
            skip "Rust, DWARF $version: this rustc doesn't compile it"
        fi
    fi
    for compiler in gcc clang; do
        can "C by $compiler, DWARF $version" $compiler || continue
        if $compiler -g -gdwarf-$version -O1 -ffreestanding -fno-pie -c -o c.o src/main.c 2> said; then
            link "C by $compiler, DWARF $version" c.due c.o
        else
            fail "$compiler compiles: $(< said)"
        fi
    done
done

# ---- names that tell their place, with no debug information

cat > named.s << 'ASSEMBLY'
.section .defmt.info.1,"",%progbits
.globl "{\"package\":\"app\",\"tag\":\"defmt_info\",\"data\":\"one\",\"disambiguator\":\"1\",\"crate_name\":\"app\",\"file\":\"a b.c\",\"line\":7}"
"{\"package\":\"app\",\"tag\":\"defmt_info\",\"data\":\"one\",\"disambiguator\":\"1\",\"crate_name\":\"app\",\"file\":\"a b.c\",\"line\":7}": .byte 0
.globl "{\"package\":\"app\",\"tag\":\"defmt_info\",\"data\":\"none\",\"disambiguator\":\"2\",\"crate_name\":\"app\"}"
"{\"package\":\"app\",\"tag\":\"defmt_info\",\"data\":\"none\",\"disambiguator\":\"2\",\"crate_name\":\"app\"}": .byte 0
ASSEMBLY
as -o named.o named.s && ld -T defmt.ld -e 0 -o named.elf named.o || exit 2
"$top/tools/places" named.elf > got 2> said
is 'a place in a name' "$(< got)" '2 a b.c:7'
is 'a string without a place is told' "$(< said)" 'places: 1 of 2 strings have no place: a firmware tells it by its debug information (-g)'

# Two strings at one index
sed 's/"line\\":7}": .byte 0/"line\\":7}":/' named.s > twice.s
as -o twice.o twice.s && ld -T defmt.ld -e 0 -o twice.elf twice.o || exit 2
"$top/tools/places" twice.elf > got 2> said
is 'an index that stands twice has one place' "$(< got)" '2 a b.c:7'
is 'an index that stands twice is told' "$(< said)" 'places: the index 2 stands twice'

# A name that LLD cut: the index is told, and its place found by the debug information
if can 'a name that was cut' clang ld.lld; then
    sed '13s/STRING/GLOBAL_STRING/; s/"hello"/"he@llo"/' src/main.c > src/cut.c
    clang -g -gdwarf-4 -O1 -ffreestanding -fno-pie -c -o cut.o src/cut.c && ld.lld -T defmt.ld -o cut.elf cut.o || exit 2
    "$top/tools/places" cut.elf > got 2> said
    is 'the place of a name that was cut' "$(grep -c ' src/cut.c:13$' got)" 1
    has 'a name that was cut is told' "$(< said)" 'was cut, as LLD and gold cut one at an @'
fi

# ---- the C library of device/, with the keys and without them by the debug information

# lines_in ELF: how many strings it has, and of how many each place is a line of a source that begins a statement or a declaration of strings
lines_in() {
    local index place all=0 good=0
    while read -r index place; do
        all=$((all + 1))
        # shellcheck disable=SC2034
        if sed -n "${place##*:}p" "lib/${place%:*}" | grep -q 'LOG_\|DEFMTL_\|ISTR('; then good=$((good + 1)); else echo "no statement: $place" >&2; fi
    done < <("$top/tools/places" "$1" 2> said)
    echo "$all $good $(readelf -sW "$1" | grep -c '"package"')"
}
if can 'the C library on a host' gcc make; then
    cp -r "$top/device" lib && make -s -C lib host > said 2>&1 || fail "the C library is compiled: $(< said)"
    is 'the C library on a host: each string has the place of its statement' "$(lines_in lib/out/host)" '3 3 3'
    if [ -n "$program" ] && (cd lib && out/host frames.bin) > said 2>&1; then
        "$program" decode --table lib/out/host --places <("$top/tools/places" lib/out/host) < lib/frames.bin > got 2> said
        is 'the program takes the places through a pipe' "$(grep -vc ' (examples/host\.c:[0-9]*)$' got)" 0
    fi
fi
if can 'the C library on a device' arm-none-eabi-gcc make; then
    [ -d lib ] || cp -r "$top/device" lib
    make -s -C lib firmware > said 2>&1 || fail "the firmware is compiled: $(< said)"
    read -r all good strings <<< "$(lines_in lib/out/firmware.elf)"
    is 'the C library on a device: each string has the place of its statement' "$good $strings" "$all $all"
fi

# ---- files that are none

"$top/tools/places" src/main.c > got 2> said
is 'a file that is no ELF file' "$? $(< got)" '1 '
as -o plain.o /dev/null && "$top/tools/places" plain.o > got 2> said
is 'a file without format strings' "$? $(< said)" '1 places: there is no section .defmt'
"$top/tools/places" nofile > got 2> said
is 'no file' "$? $(< said)" '2 places: nofile: No such file or directory'
counts
