#!/bin/bash
# Compares the table that defmtl reads from really linked ELF files with what readelf lists.
#
#   tests/real-elf.sh PROGRAM
#
# It needs gcc, GNU ld and readelf; clang, ld.lld, ld.gold and arm-none-eabi's tools are used where they
# are installed. The last line is 'N passed, M failed'.
. "$(dirname "$0")/runner.sh"
takes_program "$@"

# entries FORM: the interned strings in no order of their levels, each as FORM TAG DATA NUMBER. '@' is
# written as \u0040, since gold and LLD cut a symbol's name at it.
entries() {
  "$1" error 'disk \\u0040 full' 4
  "$1" prim u8 9
  "$1" info hello 1
  "$1" println 'bare: {{}}' 7
  "$1" trace tick 12
  "$1" warn 'a | b' 3
}

# A string is a symbol of one byte with a JSON name, for GNU's assembler or for C. LLVM's assembler
# keeps the backslashes of a quoted name, so clang is given C.
name_of() { printf '{\\"package\\":\\"app\\",\\"tag\\":\\"defmt_%s\\",\\"data\\":\\"%s\\",\\"disambiguator\\":\\"%s\\",\\"crate_name\\":\\"app\\"}' "$@"; }
as_assembly() { printf '.section .defmt.%s.n%s,"",%%progbits\n.globl "%s"\n"%s": .byte 0\n' "$1" "$3" "$(name_of "$@")" "$(name_of "$@")"; }
as_c() { printf '__attribute__((section(".defmt.%s.n%s"), used)) const char n%s __asm__("%s") = 0;\n' "$1" "$3" "$3" "$(name_of "$@")"; }

# Beside them stand a mapping symbol in .defmt and a JSON name outside of it.
assembly_text() {
  entries as_assembly
  printf '.section .defmt.info.mapping,"",%%progbits\n"$d": .byte 0\n'
  printf '.data\n.globl "{\\"not\\":\\"in .defmt\\"}"\n"{\\"not\\":\\"in .defmt\\"}": .byte 1\n'
  printf '.text\n.globl _start\n_start: .byte 0\n'
}
c_text() {
  entries as_c
  printf 'char outside __asm__("{\\"not\\":\\"in .defmt\\"}") = 1;\nvoid _start(void) {}\n'
}

# The two markers in the object, as local symbols whose names stand in double quotes.
marked_text() {
  assembly_text
  printf '.local "\\"%s\\""\n.set "\\"%s\\"", 1\n' '_defmt_version_ = 4' '_defmt_version_ = 4' '_defmt_encoding_ = rzcobs' '_defmt_encoding_ = rzcobs'
}

# The linker script: .defmt has this type, and in it are the levels one after the other from address 1
# on, with marks between them. The two markers are made here inside or outside of .defmt, or not at
# all. Some linkers put .defmt at 0 even so.
script_text() {
  printf 'SECTIONS {\n .text : { *(.text .text.*) }\n .data : { *(.data .data.*) }\n'
  printf ' .defmt 1 %s : {\n . = 1;\n *(.defmt.prim.*)\n __DEFMT_MARKER_TRACE_START = .;\n *(.defmt.trace.*)\n' "$type"
  printf ' __DEFMT_MARKER_TRACE_END = .;\n *(.defmt.info.*)\n *(.defmt.warn.*)\n *(.defmt.error.*)\n *(.defmt.println.*)\n'
  [ "$1" = inside ] && printf ' %s = 1;\n' "$markers"
  printf ' }\n'
  [ "$1" = outside ] && printf ' %s = 1;\n' "$markers"
  printf '}\n'
}
markers='"_defmt_version_ = 4" = 1; "_defmt_encoding_ = rzcobs"'
type='(INFO)' places='inside outside'

# listed FILE: what readelf lists of .symtab in .defmt, as lines 'VALUE NAME' in the order of the values
listed() {
  local number
  number=$(readelf -SW "$1" | sed -n 's/^ *\[ *\([0-9]*\)\] \.defmt .*/\1/p')
  readelf -sW "$1" | awk -v n="$number" '/^Symbol table/ { whole = /\.symtab/ } whole && $7 == n && $8 ~ /^\{/ { name = $8; for (i = 9; i <= NF; i++) name = name " " $i; print $2, name }' |
    while read -r value name; do echo "$((16#$value)) $name"; done | sort -n
}

# frame VALUE: the frame of the index alone, for printf
frame() {
  local low=$(($1 % 256)) high=$(($1 / 256))
  case $((low > 0)),$((high > 0)) in
    0,0) printf '\\x00\\x7f\\x00' ;;
    1,0) printf '\\x00\\x%02x\\x7e\\x00' "$low" ;;
    0,1) printf '\\x00\\x%02x\\x7d\\x00' "$high" ;;
    1,1) printf '\\x00\\x%02x\\x%02x\\x7c\\x00' "$low" "$high" ;;
  esac
}

# line NAME: what a frame of this entry is printed as
line() {
  local tag data
  tag=$(sed 's/.*"tag":"defmt_\([a-z]*\)".*/\1/' <<< "$1")
  data=$(sed 's/.*"data":"\([^"]*\)".*/\1/; s/\\u0040/@/g; s/{{/{/g; s/}}/}/g' <<< "$1")
  case $tag in
    println) echo "$data" ;;
    prim) echo '-- E3 Tag' ;;
    *) printf '%-5s %s\n' "${tag^^}" "$data" ;;
  esac
}

# compare WHAT FILE: the frames of all entries that readelf lists are decoded with the file as table
compare() {
  local rows="$work/rows" frames="$work/frames" want="$work/want" value name
  listed "$2" > "$rows"
  [ "$(wc -l < "$rows")" -eq 6 ] || { fail "$1: readelf lists $(wc -l < "$rows") entries and not 6"; return; }
  : > "$frames"; : > "$want"
  while read -r value name; do
    # shellcheck disable=SC2059
    printf "$(frame "$value")" >> "$frames"
    line "$name" >> "$want"
  done < "$rows"
  "$program" decode --table "$2" < "$frames" > "$work/got" 2> "$work/said"
  local status=$?
  if [ $status -eq 9 ] && cmp -s "$want" "$work/got"; then
    pass "$1"
  else
    fail "$1: status $status, $(cat "$work/said")"
    diff "$want" "$work/got"
  fi
}

# refused WHAT FILE: the file is no table
refused() {
  "$program" decode --table "$2" < /dev/null > "$work/got" 2> "$work/said"
  local status=$?
  if [ $status -eq 6 ] && [ ! -s "$work/got" ]; then pass "$1: $(cat "$work/said")"; else fail "$1: status $status"; fi
}

# linked NAME LINKER..: links the object and compares, with the markers in each of the places
linked() {
  local name=$1 place
  shift
  for place in $places; do
    script_text $place > "$work/$place.x"
    if "$@" -T "$work/$place.x" "$work/${object:-object}.o" -o "$work/$place.elf" 2> "$work/errors"; then
      if $knows; then compare "$name, markers $place" "$work/$place.elf"; else pass "$name, markers $place: linked"; fi
    else
      fail "$name, markers $place: not linked"; cat "$work/errors"
    fi
  done
}

"$program" decode --table "$0" < /dev/null > /dev/null 2>&1
if [ $? -eq 6 ]; then knows=true; else knows=false; skip "the reading of the files, since $program doesn't know 'decode --table'"; fi

assembly_text > "$work/source.s"
marked_text > "$work/marked.s"
c_text > "$work/source.c"
if can 'files that GNU ld links' gcc ld readelf; then
  for form in 64:elf_x86_64 32:elf_i386; do
    gcc -c -m"${form%:*}" "$work/source.s" -o "$work/object.o" || { fail "gcc -m${form%:*}"; continue; }
    linked "GNU ld, ELF${form%:*}" ld -m "${form#*:}"
    type='(NOLOAD)' places=inside linked "GNU ld, .defmt without bits, ELF${form%:*}" ld -m "${form#*:}"
    type='' places=inside linked "GNU ld, .defmt without a type, ELF${form%:*}" ld -m "${form#*:}"
    places=inside linked "GNU ld, shared with .dynsym in front, ELF${form%:*}" ld -m "${form#*:}" -shared
    can "files that gold links, ELF${form%:*}" ld.gold && type='' linked "gold, ELF${form%:*}" ld.gold -m "${form#*:}"
    can "files that LLD links, ELF${form%:*}" ld.lld && linked "LLD, ELF${form%:*}" ld.lld -m "${form#*:}" -e _start
    gcc -c -m"${form%:*}" "$work/marked.s" -o "$work/marked.o" && places=none object=marked linked "GNU ld, markers in the object, local and in quotes, ELF${form%:*}" ld -m "${form#*:}"
    if can "objects of clang, ELF${form%:*}" clang; then
      clang -c -fno-pic -fno-asynchronous-unwind-tables -m"${form%:*}" "$work/source.c" -o "$work/object.o" && linked "clang and GNU ld, ELF${form%:*}" ld -m "${form#*:}"
    fi
  done
  if $knows; then
    refused 'an object that was not linked' "$work/object.o"
    strip -o "$work/stripped.elf" "$work/inside.elf" && refused 'a stripped file' "$work/stripped.elf"
    markers='"_defmt_version_ = 3" = 1; "_defmt_encoding_ = rzcobs"'
    script_text inside > "$work/other.x"
    ld -m elf_i386 -T "$work/other.x" "$work/object.o" -o "$work/other.elf" 2> "$work/errors" && refused 'a file of another version' "$work/other.elf"
    markers='"_defmt_version_ = 4" = 1; "_defmt_encoding_ = rzcobs"'
  fi
fi
if can 'files that are linked for Arm' arm-none-eabi-gcc arm-none-eabi-ld; then
  arm-none-eabi-gcc -c "$work/source.s" -o "$work/object.o" && linked 'GNU ld for Arm' arm-none-eabi-ld
fi

counts
