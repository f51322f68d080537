#!/bin/bash
# Gives the program scripts and words that it refuses, and sees that each refusal is explained by the one rule that is broken: by tools/explain, which
# the launcher and the installed command call where the standard error is a terminal.
#
#   tests/explain.sh PROGRAM
#
# A row is a script, whose lines are parted by ` / `, or words, and what is explained. It needs python3. The last line is 'N passed, M failed'.
. "$(dirname "$0")/runner.sh"
takes_program "$@"
needs python3

# The lines of the scripts that are refused for their first refused line.
scripts() {
    cat << 'ROWS'
rin 64 => line 1: `rin` begins no line: `ring`, `mode`, `reader`, `stamp`, `profile`, `d`, `s`, `w` and `t` do
Ring 64 => line 1: `Ring` is written in small letters
 # note => line 1: a comment's `#` has to be its first byte
 ring 64 => line 1: a space stands in front of it
ring\t64 => line 1: a tab stands in it; single spaces part the words of a line
ring 64 # note => line 1: a note stands behind a setting; a comment is a line of its own that begins with `#`
ring 64  => line 1: a space stands at its end
ring  64 => line 1: two spaces stand behind one another; single spaces part the words of a line
stamp 1 => line 1: `stamp` takes just BASE STEP
d 1 warn now => line 1: `d` takes just N LEVEL
s hi => line 1: `s` takes NAME TAG TEXT
s hi info hello => line 1: `info` is no tag: write `defmt_info`
s at defmt_timestamp {=u64:us} => line 1: there is no `defmt_timestamp`: a line `stamp BASE STEP` says that
s hi defmt_inf hello => line 1: `defmt_inf` is no tag
s hi defmt_info a / w zero hi => line 2: `zero` is no writer: write 0 to 7
s hi defmt_info a / w 0 => line 2: `w` takes WRITER NAME ARGS
ring 64 / ring 128 => line 2: a second `ring`; line 1 has one
mode skip / # note / ring 128 => line 3: `ring` stands behind the `mode` of line 1; the order is ring, mode, reader, stamp, profile, d, s, and then w and t
s a defmt_info a / w 0 a / s b defmt_info b => line 3: `s` stands behind the `w` of line 2; the order is ring, mode, reader, stamp, profile, d, s, and then w and t
\x1b[2Jring 64 => line 1: `�[2Jring` begins no line: `ring`, `mode`, `reader`, `stamp`, `profile`, `d`, `s`, `w` and `t` do
\xff => line 1: it isn't UTF-8: a byte ff stands at its place 0
\xef\xbb\xbfring 64 => line 1: a byte order mark stands in front of it
s a-b defmt_info a => line 1: `a-b` is no name: a letter, and then at most 31 letters, digits and `_`
s a defmt_info a / w 0 b => line 2: no `s` line has the name `b`
s Boot defmt_info a / w 0 boot => line 2: no `s` line has the name `boot`; line 1 has `Boot`
s p defmt_prim a / w 0 p => line 2: `p` is a defmt_prim, which stands in arguments alone; a statement names a level or `defmt_println`
s a defmt_info a / w 0  a => line 2: the name is empty: it stands behind just one space
s a defmt_info a / s a defmt_info b => line 2: line 1 has the name `a` too
s a defmt_info {=str} / w 0 a hello => line 2: `hello` spells no value: a text stands in quotes, as `"hello"`
s a defmt_info {=str} / w 0 a "hello => line 2: `"hello` is no text: its last quote is missing, or an escape is unknown
s a defmt_info {=[u8]} / w 0 a #123 => line 2: `#123` has an odd number of digits, or others than hexadecimal ones
s a defmt_info {=u8} {=u8} / w 0 a 1 - => line 2: `-` spells no value
s a defmt_info {=u8} {=u8} / w 0 a 1 => line 2: `a` takes 2 values, and 1 stands here
s a defmt_info {0=u8} {0=u8} / w 0 a 1 2 3 => line 2: `a` takes 1 value, and 3 stand here
s a defmt_info {=u8} {=u8} / w 0 a 1 -2 => line 2: `-2` is no unsigned number, as `{=u8}` wants
s a defmt_info {=bool} / w 0 a 1 => line 2: `1` is no value for `{=bool}`: write `true` or `false`
s a defmt_info {=str} / w 0 a 7 => line 2: `7` is no value for `{=str}`: write a text between `"`
s a defmt_info {=u8:#x} / w 0 a 256 => line 2: `256` is out of range: `{=u8}` takes 0 to 255
s a defmt_info {=i16} / w 0 a -32769 => line 2: `-32769` is out of range: `{=i16}` takes -32768 to 32767
s a defmt_info {=?} / w 0 a p(1) => line 2: no `s` line has the name `p`
s a defmt_info {=istr} / w 0 a @reset => line 2: no `s` line has the name `reset`
s a defmt_info a / w 8 a => line 2: `8` is no writer: they are 0 to 7
ring 15 => line 1: `15` is no size: write 16 to 65536, without a sign, a comma or a leading zero
mode fast => line 1: `fast` is none of block, skip and trim
mode skip / reader slow => line 2: `slow` is none of live and late
reader late => line 1: `reader late` in blocking mode.
s a defmt_info {u8} => line 1: `{u8}` is no parameter: write `{=u8}`
s a defmt_info a { b => line 1: a brace isn't closed, or a plain one isn't doubled: `{{`, `}}`
s a defmt_info {=u9} => line 1: `u9` is no kind
s a defmt_info {:u8} => line 1: `u8` is no display hint: a kind stands behind `=`, `{=u8}`
s a defmt_info {=u8:04} => line 1: `04` is no display hint
s a defmt_info {=char {=u8} => line 1: `char {=u8` is no kind
s a defmt_info {{ {=u8:q} }} => line 1: `q` is no display hint
s a defmt_info {16=u8} => line 1: the position 16 is above 15
s a defmt_info {=?} / w 0 a p(q(1) => line 2: a bracket of `p(q(1)` isn't closed
s a defmt_info {=f32} => line 1: `f32` isn't read: log an integer, such as thousandths under the hint `ms`
s a defmt_info {1=u8} => line 1: A position below the greatest isn't used.
stamp 1 0250 => line 1: `0250` is no number up to 281474976710656, in decimal digits
profile 3 => line 1: `3` is no profile: write `profile 1` or `profile 2`
t 0 a hello => line 1: `a` is no terminal: they are 0 to 9 and A to F
d 4097 warn => line 1: `4097` is no number up to 4096, in decimal digits
d 4 loud => line 1: `loud` is no level: trace, debug, info, warn, error
ROWS
}

words() {
    cat << 'ROWS'
frob => there is no command `frob`
--only loud run => --only: `loud` is no floor: trace, debug, info, warn, error or off stands first
--only warn => no word of them is a command
run --group --group => --group stands twice
print --group => --group doesn't go with print; it goes with run
run --base 0x1 => --base doesn't go with run; it goes with dump
run --colour => there is no option `--colour`
run --only loud => --only: `loud` is no floor: trace, debug, info, warn, error or off stands first
run --only warn,motor => --only: `motor` is no PACKAGE=FLOOR
run --only => --only takes RULES behind it
decode => decode needs --table FILE
dump --table x --base 20000000 => --base: `20000000` is no address: write `0x` and 1 to 8 hexadecimal digits
dump --table x --up 16 => --up: `16` is none of 0 to 15
run README.md => `README.md` is one word too many: a script comes from the standard input, `< README.md`
decode --table x README.md => `README.md` is one word too many: a recording comes from the standard input, `< README.md`
decode README.md => `README.md` is one word too many: decode takes the ELF file as `--table README.md`
dump --up 1 fw.elf --old => `fw.elf` is one word too many: dump takes the ELF file as `--table fw.elf`
run --json --color => of --json and --color one at most
run --color --json => of --json and --color one at most
decode --table x --fail-on off => --fail-on: `off` is no level: trace, debug, info, warn or error
decode --table x --fail-on => --fail-on takes LEVEL behind it
dump --table x --live => --live doesn't go with dump; it goes with decode
run --places f => --places doesn't go with run; it goes with decode and dump
decode --table x --live=1 => --live takes nothing behind it
print --json => --json doesn't go with print; it goes with decode, dump and run
gen => gen takes a number from 1 to 4096 behind it
gen 007 => `007` is no number from 1 to 4096 without a leading zero
ROWS
}

# explained DUE WORD..: what is said of the refusal of these words, whose input is the file `script`
explained() {
    local due=$1 status said got
    shift
    said=$("$program" "$@" 2>&1 > /dev/null < "$work/script")
    status=$?
    got=$("$top/tools/explain" "$top/docs/EXPLAIN.md" 0 "$status" "${said##*$'\n'}" "$@" < "$work/script")
    is "$*: $said" "$got" "defmtl: $due (docs/EXPLAIN.md)"
}

cd "$top" || exit 2
while IFS= read -r row; do
    text=${row% => *}
    printf '%b' "${text// \/ /\\n}" > "$work/script"
    explained "${row##* => }" print
done < <(scripts)
: > "$work/script"
while IFS= read -r row; do
    read -r -a each <<< "${row%% => *}"
    explained "${row#* => }" "${each[@]}"
done < <(words)
explained '`nowhere.elf`: there is no such file' decode --table nowhere.elf
explained '`docs`: it is a folder' decode --table docs
"$program" table < examples/hello.defmtl > "$work/hello.elf"
explained '`nowhere`: there is no such file' decode --table "$work/hello.elf" --places nowhere
explained '`nowhere.elf`: there is no such file' decode --table nowhere.elf --places nowhere
printf '1 a\n01 b\n' > "$work/places"
explained "line 2 of the file behind --places: The line isn't UTF-8, or has another form than an index, a space and a place." decode --table "$work/hello.elf" --places "$work/places"
echo '65536 a' > "$work/places"
explained 'line 1 of the file behind --places: The index is above 65,535.' decode --table "$work/hello.elf" --places "$work/places"
truncate -s 67108865 "$work/large"
explained "\`$work/large\`: it has more than 67,108,864 bytes" decode --table "$work/large"
explained "\`$work/large\`: it has more than 67,108,864 bytes" dump --table "$work/hello.elf" --places "$work/large"
head -c 4194305 /dev/zero | tr '\0' '\n' > "$work/script"
explained 'the script has more than 4,194,304 bytes' print
cp examples/hello.defmtl "$work/script"
explained 'so many lines of this level or a more severe one were printed: --fail-on asks for this status' run --fail-on trace
counts
