#!/bin/sh
# Measures `decode --table` of an empty recording with large ELF files, up to one of 64 MiB with 60,000 symbols, and what a string costs in `table` and in reading it back.
#
#   bench/table_file.sh        at the repository's top, once ./defmtl has built the program; needs valgrind, and for the files perl and GNU time
#
# Files of 30,000 and of 60,000 symbols: with short names, where instructions are counted, and with names of 1,100 bytes, where the least of
# three processor times and the peak memory are taken. Twice the symbols have a ratio of about 2. A string's cost is the difference of scripts with 1,000
# and with 2,000 strings: `table` reads the script and writes the file, `decode` reads that. docs/DECISIONS.md says how names are read.

. "$(dirname "$0")/common.sh"
need valgrind

# strings COUNT: a script with this many strings
strings() {
    awk -v count="$1" 'BEGIN { for (k = 0; k < count; k++) printf "s a%d defmt_info message number %d has {=u16}\n", k, k }'
}

for count in 1000 2000; do strings "$count" > "$work/script.$count" && "$program" table < "$work/script.$count" > "$work/$count.elf" || exit 1; done
few=$(counted table < "$work/script.1000") && many=$(counted table < "$work/script.2000") || exit 1
judge "instructions of table a string, with the reading of its line" $(((many - few) / 1000)) 12000
few=$(counted decode --table "$work/1000.elf" < /dev/null) && many=$(counted decode --table "$work/2000.elf" < /dev/null) || exit 1
judge "instructions of decode a string of its table" $(((many - few) / 1000)) 10000

need perl time

# elf COUNT LENGTH: an ELF32 file with this many symbols, whose names have this length
elf() {
    perl -e '
        my ($count, $length) = @ARGV;
        my ($symbols, $strings) = (pack("x16"), "\0");
        sub symbol { my ($name, $value, $section) = @_; $symbols .= pack("VVVCCv", length $strings, $value, 0, 16, 0, $section); $strings .= "$name\0" }
        symbol($_, 1, 0xfff1) for "_defmt_version_ = 4", "_defmt_encoding_ = rzcobs";
        for my $index (1 .. $count) {
            my ($front, $end) = ("{\"data\":\"text $index {=u32} ", "\",\"disambiguator\":\"$index\",\"package\":\"bench\",\"tag\":\"defmt_info\"}");
            symbol($front . "x" x ($length - length($front) - length $end) . $end, $index, 1);
        }
        my $names = "\0.defmt\0.symtab\0.strtab\0.shstrtab\0";
        my $place = 52;
        my $sections = pack("x40");
        sub section { my ($name, $type, $size, $link, $entry) = @_; $sections .= pack("V10", $name, $type, 0, 0, $place, $size, $link, 0, 1, $entry); $place += $size }
        section(1, 1, 0, 0, 0);
        section(8, 2, length $symbols, 3, 16);
        section(16, 3, length $strings, 0, 0);
        section(24, 3, length $names, 0, 0);
        print pack("C7x9vvVVVVVvvvvvv", 0x7f, 0x45, 0x4c, 0x46, 1, 1, 1, 2, 40, 1, 0, 0, $place, 0, 52, 0, 0, 40, 5, 4), $symbols, $strings, $names, $sections;
    ' "$1" "$2"
}

printf '%7s %7s %10s %14s %8s %8s\n' symbols length bytes instructions seconds KiB
before=
for count in 30000 60000; do
    elf "$count" 110 > "$work/table.elf"
    instructions=$(counted decode --table "$work/table.elf" < /dev/null) || exit 1
    printf '%7d %7d %10d %14d\n' "$count" 110 "$(wc -c < "$work/table.elf")" "$instructions"
    last=$(ratio "$before" "$instructions") before=$instructions
done
judge "the ratio of instructions" "$last" 2.2

before=
for count in 30000 60000; do
    elf "$count" 1100 > "$work/table.elf"
    ran=$(measured 3 1 /dev/null decode --table "$work/table.elf") || exit 1
    printf '%7d %7d %10d %14s %8s %8s\n' "$count" 1100 "$(wc -c < "$work/table.elf")" "" $ran
    last=$(ratio "$before" "${ran% *}") before=${ran% *}
done
judge "the ratio of processor times" "$last" 2.4

exit "$worst"
