#!/bin/bash
# Builds a firmware in Rust whose interned strings are those of defmt's macros (floats, derived structs and enums, Debug and Display texts, `Format`
# written by hand, lists, options, bit fields), once for each hint of a stamp, links it by GNU ld and by LLD, and compares what `decode --full` prints of
# its recording with the lines that its source names. One of its strings has an `@`, at which LLD cuts a symbol's name: that string alone isn't supported
# then. Without --full, and with a damaged frame, each other statement has its line as before.
#
#   tests/rust-firmware.sh PROGRAM [TIMES]      so many damaged recordings, 200 where no number is given
#
# It needs rustc from 1.82 on, gcc and GNU ld; ld.lld is used where it is installed. The last line is 'N passed, M failed'.
. "$(dirname "$0")/runner.sh"
takes_program "$@"
needs rustc gcc ld readelf python3
sources=$top/tests/rust-firmware

# An older rustc doesn't know these two words; it calls gcc for a linker by itself.
plain=()
rustc -C link-self-contained=-linker -C linker-features=-lld --print sysroot > /dev/null 2>&1 && plain=(-C link-self-contained=-linker -C linker-features=-lld)

# built STAMP LINKER: builds the firmware, its recording and its lines as $work/STAMP.LINKER, .bin and .due
built() {
    local out=$work/$1.$2
    rustc --edition 2024 --cfg "stamp=\"$1\"" -C relocation-model=static "${plain[@]}" -C link-arg=-no-pie -C "link-arg=-fuse-ld=$2" \
        -C "link-arg=-Wl,-T,$sources/defmt.x" "$sources/main.rs" -o "$out" 2> "$work/errors" || { fail "$1, $2: not built"; tail -n 5 "$work/errors"; return 1; }
    "$out" > "$out.bin" && "$out" lines > "$out.due"
}

# decoded WHAT TABLE STATUS WORD..: decodes the recording, and compares the lines and the status
decoded() {
    local what=$1 table=$2 status=$3 got
    shift 3
    "$program" decode --table "$table" "$@" < "$table.bin" > "$work/got" 2> "$work/said"
    got=$?
    if [ $got -eq "$status" ]; then pass; else fail "$what: status $got, $(cat "$work/said")"; fi
    same "$what" "$table.due" "$work/got"
}

linkers=(bfd)
can 'a firmware that LLD links' ld.lld && linkers+=(lld)
for linker in "${linkers[@]}"; do
    for stamp in plain us ms ts tms tus iso8601s iso8601ms; do
        built $stamp "$linker" || continue
        if [ "$linker" = lld ]; then
            readelf -sW "$work/$stamp.lld" | grep -q 'mail to a$' || { skip 'a name that LLD cuts, which this LLD does not'; continue; }
            sed -i 's/.*mail to a@b.c.*/-- E4 Unsupported/' "$work/$stamp.lld.due"
            decoded "stamp $stamp, LLD" "$work/$stamp.lld" 9 --full
        else
            decoded "stamp $stamp, GNU ld" "$work/$stamp.bfd" 0 --full
        fi
    done
done

# Without --full what the language Base doesn't know is told in its place, and a name that can't be read refuses the table.
"$program" decode --table "$work/us.bfd" < "$work/us.bfd.bin" > "$work/got" 2> /dev/null
is 'without --full: status' $? 9
is 'without --full: as many lines' "$(wc -l < "$work/got")" "$(wc -l < "$work/us.bfd.due")"
has 'without --full: what is known' "$(cat "$work/got")" '97384.250125 INFO  mail to a@b.c: sent'
has 'without --full: a float' "$(head -n 1 "$work/got")" '-- E4 Unsupported'
if [ -f "$work/us.lld" ]; then
    "$program" decode --table "$work/us.lld" < "$work/us.lld.bin" > "$work/got" 2> /dev/null
    is 'without --full: a name that LLD cut' $? 6
fi

read -r more worse < <(python3 "$sources/damage.py" "$program" "$work/tms.bfd" "$work/tms.bfd.bin" "$work/tms.bfd.due" "${2:-200}" | tee "$work/said" | tail -n 1 | sed 's/ passed, / /; s/ failed//')
grep '^FAILED' "$work/said" | head -n 5
passed=$((passed + more)) failed=$((failed + worse))
counts
