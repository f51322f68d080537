#!/bin/bash
# Tries the device's side in C of device/ as far as compilers, an emulator and the program can: right and wrong statements, warnings, what
# random statements send against `record`, forms and characters of texts, main and a handler that log at once, a device that is read over its
# serial port while it runs, and the bounds of size, stack and time that device/README.md names. (How long compilers take, bench/device.sh tells.)
#
#   tests/device.sh PROGRAM [COUNT [SEED]]
#
# COUNT is the number of random statements of each of four programs, at most 4000, and 2500 where it isn't given; SEED is what they are made from. It needs
# arm-none-eabi-gcc and g++ with newlib, gcc and g++, clang, qemu-system-arm and python3 (Debian: gcc-arm-none-eabi, libnewlib-arm-none-eabi,
# gcc, g++, clang, qemu-system-arm, python3). The last line is 'N passed, M failed'.
. "$(dirname "$0")/runner.sh"
takes_program "$@"
needs python3 gcc g++ nm clang clang++ arm-none-eabi-gcc arm-none-eabi-g++ qemu-system-arm
echo '#include <string.h>' | arm-none-eabi-gcc -E - > /dev/null 2>&1 || { skip "all: there are no headers of newlib, which the package libnewlib-arm-none-eabi brings"; counts; }
count=${2:-2500} seed=${3:-1} device=$top/device tests=$top/tests/device

# judge WHAT COMMAND..: passes where the command ends with 0
judge() {
    local what=$1
    shift
    if "$@" > said 2>&1; then pass "$what"; else fail "$what"; tail -n 8 said; fi
}

# bound WHAT GOT MOST: passes where a number is there and isn't above another one
bound() {
    if [ -n "$2" ] && awk "BEGIN { exit !($2 > 0 && $2 <= $3) }"; then pass "$1: $2 of at most $3"; else fail "$1: '$2' of at most $3"; fi
}

cd "$work" || exit 2

warn="-Wall -Wextra -Wconversion -Wpedantic -Werror"
arm="-mcpu=cortex-m3 -mthumb"
firmware="$arm -std=c11 -ffreestanding -nostartfiles -nostdlib -L$device -Wl,-T,$device/examples/firmware.ld -Wl,--build-id=none -I$device -I$tests"
host="-fno-pie -I$device -I$tests -DDEFMTL_RING=4096"
host_link="-no-pie -L$device -Wl,-T,$device/defmtl_host.ld -pthread"

# ---- statements that are right and wrong

judged() {
    python3 "$tests/refuse.py" "$device" "$@" > judged
    grep -v '^ok: ' judged
    passed=$((passed + $(grep -c '^ok: ' judged))) failed=$((failed + $(grep -c '^FAILED: ' judged)))
    [ -s judged ] || fail "$1: the statements are judged"
}
for level in -O0 -Os; do
    judged "C by GCC, $level" c arm-none-eabi-gcc $arm -std=c11 $level
    judged "C by Clang, $level" c clang --target=arm-none-eabi -mcpu=cortex-m0 -ffreestanding -std=c11 $level
    judged "C++ by GCC, $level" cc arm-none-eabi-g++ -mcpu=cortex-m33 -mthumb -std=c++17 $level
    judged "C++ by Clang, $level" cc clang++ --target=arm-none-eabi -mcpu=cortex-m3 -ffreestanding -std=c++17 $level
done

# ---- no warnings, for each core and compiler

compile_all() {
    local core level profile
    for core in cortex-m0 cortex-m3 cortex-m33; do
        for level in -O0 -O2; do
            for profile in 1 2; do
                arm-none-eabi-gcc -mcpu=$core -mthumb -std=c11 $level $warn -DDEFMTL_PROFILE=$profile -I"$device" -c "$device/defmtl.c" -o x.o &&
                    clang --target=arm-none-eabi -mcpu=$core -std=c11 -ffreestanding $level $warn -DDEFMTL_PROFILE=$profile -I"$device" -c "$device/defmtl.c" -o x.o || return
            done
        done
    done
    arm-none-eabi-gcc $arm -std=c11 -Os $warn -DDEFMTL_BASEPRI=0x40 -DDEFMTL_UP_BUFFERS=3 -DDEFMTL_MESSAGE=2000 -I"$device" -c "$device/defmtl.c" -o x.o &&
        arm-none-eabi-gcc $arm -std=c11 -Os $warn -DDEFMTL_NO_STAMP -I"$device" -c "$device/defmtl.c" -o x.o &&
        gcc -std=c11 -O2 $warn -I"$device" -c "$device/defmtl.c" -o x.o && clang -std=c11 -O2 $warn -I"$device" -c "$device/defmtl.c" -o x.o &&
        make -s -C "$device" all OUT="$work/out" WARN="-std=c11 $warn" &&
        make -s -C "$device" host OUT="$work/out" WARN="-std=c11 $warn" HOST_SOURCES="$tests/stamp.c" MORE="-I$tests -DDEFMTL_RING=4096"
}
judge "the C file, the examples and a source of one's own give no warning, for Cortex-M0, M3, M33 and the host" compile_all

# ---- names of a user's own macros

cat > letters.c << 'EOF'
#include "defmtl.h"
struct pair { uint8_t a, b; };
DEFMTL_FORMAT(struct pair, pair, "{=u8} {=u8}", self->a, self->b)
DEFMTL_UNION(struct pair, one, self->a, "none|one {=u8}", (), (self->b))
void say(uint8_t byte, double x, const char *text, const struct pair *pairs);
void say(uint8_t byte, double x, const char *text, const struct pair *pairs) {
    LOG_INFO("{0=u8} {0=u8:x} {1=f64} {2=str} {3=istr}", byte, x, text, ISTR("text"));
    LOG_INFO("{0=0..4} {0=4..8} {1=[u8]} {2=[?]} {3=?} {4=u128}", byte, SLICE(text, 2), LIST(pair, pairs, 2), FMT(one, pairs), WIDE(1, 2));
}
EOF
letters=$(printf -- '-D%s=3 ' {A..Z})
for row in "gcc -std=c11" "clang -std=c11" "g++ -x c++ -std=c++17" "clang++ -x c++ -std=c++17"; do
    judge "macros of one capital letter don't harm the library, ${row%% *}" $row $warn $letters -I"$device" -c letters.c -o x.o
done

# ---- what a host reads of texts, forms and settings

# read_lines WHAT DUE LANGUAGE COMPILER FILE FLAG..: builds a test of one function for the host, and compares its lines
read_lines() {
    local what=$1 due=$2 language=$3 compiler=$4 file=$5
    shift 5
    gcc -std=c11 -O1 $host "$@" -c "$device/defmtl.c" -o core.o && $compiler -x "$language" $host $warn "$@" -c "$file" -o one.o 2> said &&
        $compiler -x none $host_link "$@" one.o core.o -o one 2>> said && ./one > frames && "$program" decode --table one < frames > got 2>> said
    if [ $? -ne 0 ]; then fail "$what"; tail -n 5 said; else same "$what" "$due" got; fi
}
python3 "$tests/chars.py" chars.c chars.due
sed -n 's/.*\/\/= //p' "$tests/forms.c" > forms.c.due
printf '%s\n' 'template 7' 'template 8' 'motor -4' 'twice 4' 'lambda 3 8' 'loop 0' 'loop 1' 'moving [(1, -2), (3, 4)] 1' one one 'in namespaces 5' 'in namespaces 6' \
    'in an unnamed namespace' 'of a class template 9' > forms.cc.due
[ "$(sort forms.cc.due)" = "$(sed -n 's/.*\/\/= //p' "$tests/forms.cc" | sort)" ] || fail "the lines of forms.cc are those beside its statements"
for compiler in gcc clang; do
    read_lines "each character and escape in a text, C by $compiler" chars.due c "$compiler -std=c11" chars.c
    read_lines "macros, floors, unions and drops, C by $compiler" forms.c.due c "$compiler -std=c11" "$tests/forms.c"
done
for compiler in g++ clang++; do
    read_lines "each character and escape in a text, C++ by $compiler" chars.due c++ "$compiler -std=c++17" chars.c
    for level in -O0 -O2; do
        read_lines "templates, members, lambdas and namespaces, C++ by $compiler $level" forms.cc.due c++ "$compiler -std=c++17 $level" "$tests/forms.cc"
    done
done
# dead_code WHAT COMPILER FLAG..: statements in code that never runs link, and those beside them are read
dead_code() {
    local what=$1 compiler=$2 c=gcc language="c -std=c11"
    shift 2
    case $compiler in *++) language="c++ -std=c++17" ;; esac
    case $compiler in clang*) c=clang ;; esac
    $c -std=c11 $host "$@" -c "$device/defmtl.c" -o core.o 2> said && $compiler -x $language $host $warn "$@" -c "$tests/dead.c" -o one.o 2>> said &&
        $compiler "$@" $host_link one.o core.o -o one 2>> said && ./one > frames && "$program" decode --table one < frames > got 2>> said
    if [ $? -ne 0 ]; then fail "$what"; tail -n 5 said; else same "$what" dead.due got; fi
}
sed -n 's/.*\/\/= //p' "$tests/dead.c" > dead.due
for compiler in gcc g++ clang clang++; do
    for level in -O0 -Og -O1 -Os -O2 -O3 "-O2 -flto" "-O1 -fPIE" "-O1 -fPIC"; do
        case $compiler$level in clang*-flto) echo 'int main(void) { return 0; }' | clang -flto -x c - -o one 2> said || { skip "clang with -flto, whose linker has no plugin"; continue; } ;; esac
        dead_code "statements in code that never runs, $compiler $level" $compiler $level
    done
done
# files that -flto brings together, with a statement of the same number on the same line
for name in one two; do printf '#include "defmtl.h"\nvoid %s(void);\nvoid %s(void) { LOG_PRINTLN("%s {=istr}", ISTR("%s")); }\n' $name $name $name $name > $name.c; done
printf '#include "host.h"\nvoid one(void);\nvoid two(void);\nstatic void all(void) {\n    one();\n    two();\n}\nRUN(all)\n' > both.c
printf '%s\n' 'one one' 'two two' > both.due
for compiler in "gcc -x c -std=c11" "g++ -x c++ -std=c++17"; do
    gcc -std=c11 -O2 -flto $host -c "$device/defmtl.c" -o core.o && for name in one two both; do $compiler -O2 -flto $host $warn -DDEFMTL_UNIT=$name -c $name.c -o $name.o; done &&
        ${compiler%% *} -O2 -flto $host_link one.o two.o both.o core.o -o both && ./both > frames && "$program" decode --table both < frames > got
    same "files with the same statement by -flto, ${compiler%% *}" both.due got
done
# where an index would be no address, linking fails and says so
for compiler in gcc clang; do
    if $compiler -std=c11 -fPIE -I"$device" -I"$tests" "$tests/stamp.c" "$device/defmtl.c" -L"$device" -Wl,-T,"$device/defmtl_host.ld" -pthread -pie -o one > said 2>&1; then
        fail "$compiler links a process without -no-pie"
    elif [ $compiler = gcc ] || grep -q 'defmtl: link with -no-pie' said; then pass; else fail "$compiler says what is wrong without -no-pie"; fi
done
for compiler in "gcc -x c -std=c11" "g++ -x c++ -std=c++17 -fno-exceptions"; do
    for level in "-mcpu=cortex-m0 -O0" "-mcpu=cortex-m0 -Os" "-mcpu=cortex-m3 -O0" "-mcpu=cortex-m3 -O2" "-mcpu=cortex-m3 -O2 -flto"; do
        judge "statements in code that never runs link, arm-none-eabi-$compiler $level" arm-none-eabi-${compiler%% *} -mthumb $level -I"$device" -I"$tests" ${compiler#* } "$tests/dead.c" \
            -x c -std=c11 "$device/defmtl.c" "$device/examples/startup.c" --specs=nosys.specs -nostartfiles -L"$device" "-Wl,-T,$device/examples/firmware.ld,--defsym,end=0x20008000" -o one.elf
    done
done
echo '1.500 INFO  stamped' > stamp.due
read_lines "a stamp of four bytes in milliseconds" stamp.due c "gcc -std=c11" "$tests/stamp.c" '-DDEFMTL_STAMP="{=u32:ms}"'
echo 'INFO  stamped' > stamp.due
read_lines "no stamp" stamp.due c "gcc -std=c11" "$tests/stamp.c" -DDEFMTL_NO_STAMP
gcc -std=c11 $host $host_link -DDEFMTL_NO_STAMP "$tests/floats.c" "$device/defmtl.c" -o one && ./one | od -An -tx1 | tr -d '\n' > got
# the index 1; 3fc00000, c000000000000000 and 3fe0000000000000 with their lowest bytes first
printf ' 00 01 c0 3f 4e c0 3f e0 3f 3f 7e 00' > due
same "floats are sent as their bits" due got
./one > frames && "$program" decode --full --table one < frames > got
echo 'INFO  1.5 -2.0 0.5' > due
same "floats are read with --full" due got
sed -n 's/.*\/\/= //p' "$tests/hints.c" | sed "s/ZEROS/$(printf '%0255d' 0)/" > due
for row in "gcc -std=c11" "clang -std=c11" "g++ -x c++ -std=c++17" "clang++ -x c++ -std=c++17"; do
    gcc -std=c11 $host -c "$device/defmtl.c" -o core.o && $row $host $warn -c "$tests/hints.c" -o one.o && gcc $host_link one.o core.o -o one &&
        ./one > frames && "$program" decode --full --table one < frames > got
    same "dates, clocks and widths are read with --full, ${row%% *}" due got
done

# ---- random statements against `record`

number=0
for pair in "gcc c 1" "clang c 2" "g++ c++ 2" "clang++ c++ 1"; do
    read -r compiler language profile <<< "$pair"
    number=$((number + 1))
    sanitize="-O1 -g -fsanitize=undefined -fno-sanitize-recover=all -DDEFMTL_MESSAGE=2000 -DDEFMTL_PROFILE=$profile"
    case $compiler in g*) sanitize="$sanitize -fsanitize=address" ;; esac # Clang's parts the indexes by 32
    standard=-std=c11 of_c=$compiler
    case $compiler in g++) of_c=gcc standard=-std=c++17 ;; clang++) of_c=clang standard=-std=c++17 ;; esac
    python3 "$tests/generate.py" $((10 * seed + number)) 60 > random.c
    if $compiler $standard -x $language -w $host $sanitize -c random.c -o random.o 2> said && $of_c -std=c11 $host $sanitize -c "$device/defmtl.c" -o core.o 2>> said &&
        $compiler $sanitize $host_link random.o core.o -o random 2>> said; then
        judge "$count random statements of $language by $compiler in profile $profile are sent as record does" \
            python3 "$tests/compare.py" "$program" ./random "$profile" $((10 * seed + number)) "$count"
    else
        fail "a program of random statements is compiled by $compiler"
        tail -n 5 said
    fi
done

# ---- codes, read back by a decoder of their own

if gcc -std=c11 -O2 -Wall -Wextra -fsanitize=undefined,address -fno-sanitize-recover=all -I"$device" "$tests/codes.c" -o codes 2> said && ./codes > got 2>&1; then
    pass "the codes of $(cat got) messages, all patterns of zeros up to 16 bytes among them, stand for them"
else
    fail "codes stand for their messages"
    cat said got | tail -n 5
fi

# ---- threads on a host

gcc -std=c11 -O2 $host -DDEFMTL_PROFILE=2 "$device/examples/host.c" "$device/defmtl.c" $host_link -o threads && ./threads frames && "$program" decode --table threads < frames > got 2> said
for name in one two; do
    grep -oE "$name counts [0-9]+" got | sort -c -n -k 3 || fail "the lines of thread $name are in their order"
done
told=$(awk '$1 == "--" && $2 == "gap" { n += $3 } END { print n + 0 }' got)
lines=$(grep -c 'counts' got)
if [ $((told + lines)) -eq 2000 ] && tail -n 1 got | grep -q "^$told of 2000 were dropped$"; then pass "two threads log: each message is a line or is counted by a gap"; else fail "two threads log: $lines lines, $told in gaps"; tail -n 2 got; fi

# ---- the emulated device

# run_device ELF SECONDS WORD..: runs a firmware, and saves its memory as ram.bin
run_device() {
    local elf=$1 seconds=$2
    shift 2
    rm -f ram.bin
    {
        sleep "$seconds"
        echo "pmemsave 0x20000000 0x10000 \"$work/ram.bin\""
        echo quit
    } | timeout 60 qemu-system-arm -M lm3s6965evb "$@" -display none -serial none -monitor stdio -kernel "$elf" > said 2>&1
    [ -s ram.bin ]
}

# value ELF NAME: the variable in the saved memory
value() { od -An -tu4 -j $((0x$(nm "$1" | awk -v name="$2" '$3 == name { print $1 }') - 0x20000000)) -N 4 ram.bin | tr -d ' '; }

# run_until_ended ELF WORD..: runs it longer and longer, until it says that it has ended
run_until_ended() {
    local elf=$1 seconds
    shift
    for seconds in 1 4 15; do
        run_device "$elf" $seconds "$@" && [ "$(value "$elf" ended)" = 1 ] && return
    done
    fail "$elf: the firmware ends"
    return 1
}

in_order() { grep -oE '^[0-9]+\.[0-9]+' "$1" | sort -c -g; }

# race WHAT MODE HOST RING COUNT RELOAD: main and a handler log at once, in profile 2
race() {
    arm-none-eabi-gcc $firmware -Os -DDEFMTL_PROFILE=2 -DMODE="$2" -DHOST="$3" -DDEFMTL_RING="$4" -DCOUNT="$5" -DRELOAD="$6" "$tests/race.c" \
        "$device/defmtl.c" "$device/examples/startup.c" -o race.elf -lc -lgcc 2> said && run_until_ended race.elf -icount shift=7 || { fail "$1"; tail -n 3 said; return; }
    if [ "$3" -gt 0 ]; then
        tail -c +$((0x$(nm race.elf | awk '$3 == "capture" { print $1 }') - 0x20000000 + 1)) ram.bin | head -c "$(value race.elf taken)" > frames
        "$program" decode --table race.elf < frames > got 2> said
    else
        "$program" dump --table race.elf < ram.bin > got 2> said
    fi
    local ticked
    ticked=$(value race.elf logged_by_handler)
    gaps=$(awk '$1 == "--" && $2 == "gap" { n += $3 } END { print n + 0 }' got) faults=$(grep -c '^-- [^g]' got)
    mains=$(grep -c ' INFO ' got) handlers=$(grep -c ' WARN ' got)
    if in_order got && { [ "$faults" -eq 0 ] || [ "$2" -eq 1 ]; } && [ $((mains + handlers + gaps)) -eq $(($5 + ticked)) ] && [ "$ticked" -gt 5 ] && [ "$handlers" -gt 0 ] && eval "[ $7 ]"; then
        pass "$1 ($mains of main, $handlers of the handler, $gaps in gaps)"
    else
        fail "$1: $mains of main, $handlers of $ticked of the handler, $gaps in gaps, $faults faults"
        tail -n 3 got
    fi
}
race "main and a handler log, all have room: no gap, stamps go up" 0 0 30000 200 1500 '"$gaps" -eq 0'
race "skip: the gaps tell all that were dropped" 0 8 300 200 1500 '"$gaps" -gt 0'
race "trim: frames that were cut are faults, and are told by gaps too" 1 8 300 200 1500 '"$faults" -gt 0'
race "block: main waits for the host, and only the handler's are dropped" 2 60 200 150 1500 '"$mains" -eq 150'

# the serial port, read while the device runs
arm-none-eabi-gcc $firmware -Os "$tests/serial.c" "$device/defmtl.c" "$device/examples/startup.c" -o serial.elf -lc -lgcc
mkfifo port
timeout 60 qemu-system-arm -M lm3s6965evb -display none -monitor none -serial stdio -kernel serial.elf < /dev/null > port 2> said &
emulator=$!
"$program" decode --table serial.elf < port > got 2> said.decode &
reader=$!
for _ in $(seq 200); do
    [ "$(wc -l < got)" -ge 20 ] && break
    sleep 0.1
done
kill -0 $emulator 2> /dev/null && running=1 || running=0
seq 0 19 | awk '{ printf "%d.%06d INFO  round %d\n", $1 / 1000, $1 % 1000 * 1000, $1 }' > due
head -n 20 got > got.20
same "a device that runs is read over its serial port" due got.20
[ $running -eq 1 ] || fail "the device ran while it was read"
kill $emulator 2> /dev/null
wait $emulator $reader 2> /dev/null

# two up-buffers
arm-none-eabi-gcc $firmware -Os -DDEFMTL_UP_BUFFERS=2 "$tests/two_ups.c" "$tests/two_ups_main.c" "$device/defmtl.c" "$device/examples/startup.c" -o ups.elf -lc -lgcc && run_device ups.elf 1
printf '%s\n' '0.000007 INFO  first 0' '0.000007 INFO  first 1' > due
"$program" dump --table ups.elf < ram.bin > got 2>&1
same "the up-buffer 0 of two" due got
printf '%s\n' '0.000007 INFO  aside 0' '0.000007 INFO  aside 1' > due
"$program" dump --table ups.elf --up 1 < ram.bin > got 2>&1
same "the up-buffer 1 of two" due got

# ---- bounds

# of a statement with two numbers, in a function of its own; and of the instructions of ten, by the emulator's clock
statements() {
    echo '#include "defmtl.h"'
    seq "$1" | awk '{ printf "void f%d(uint8_t a, uint32_t b); void f%d(uint8_t a, uint32_t b) { %s(\"speed {=u8:#04x} at {=u32}\", a, b); }\n", $1, $1, "'"$2"'" }'
}
text_of() { arm-none-eabi-size "$1" | awk 'NR == 2 { print $1 }'; }
statements 50 LOG_INFO > some.c
statements 50 defmtl_nothing | sed 's/#include.*/#include <stdint.h>\nvoid defmtl_nothing(const char *text, uint8_t a, uint32_t b);/; s/{ defmtl_nothing.*/{ (void)a; (void)b; }/' > none.c
for core in m0 m3 m33; do
    arm-none-eabi-gcc -mcpu=cortex-$core -mthumb -std=c11 -Os -I"$device" -c some.c -o some.o && arm-none-eabi-gcc -mcpu=cortex-$core -mthumb -std=c11 -Os -c none.c -o none.o
    most=32
    bound "bytes of a statement with two numbers, Cortex-${core^^} -Os" $((($(text_of some.o) - $(text_of none.o)) / 50)) $most
done
arm-none-eabi-gcc $arm -std=c11 -Os -fstack-usage -I"$device" -c "$device/defmtl.c" -o x.o
stack=$(awk -F'[:\t]' '{ used[$4] = $5 } END { for (name in used) { sub(/\..*/, "", name) } print used["defmtl_log"] + used["defmtl_send.constprop"] + used["defmtl_send"] + used["defmtl_each"] + used["defmtl_word"] }' x.su)
bound "bytes of stack below a statement, Cortex-M3 -Os" "$stack" 300

# The header of one file that was here before took so many units, with interrupts off for 1503 and 1346.
for row in "-Os 9206 19152 1503" "-O2 8230 17168 1346"; do
    read -r level numbers texts lock <<< "$row"
    arm-none-eabi-gcc $firmware $level -DDEFMTL_RING=4000 "$tests/measure.c" "$device/defmtl.c" "$device/examples/startup.c" -o time.elf -lc -lgcc &&
        run_until_ended time.elf -icount shift=7 || { fail "the time is measured"; continue; }
    bound "units of ten statements with two numbers, $level" "$(value time.elf ten_numbers)" $((numbers * 11 / 10))
    bound "units of ten statements with a text, $level" "$(value time.elf ten_texts)" $((texts * 11 / 10))
    arm-none-eabi-gcc $firmware $level -DDEFMTL_RING=4000 "-DDEFMTL_PORT_FILE=\"measure_port.h\"" "$tests/measure.c" "$device/defmtl.c" "$device/examples/startup.c" -o lock.elf -lc -lgcc &&
        run_until_ended lock.elf -icount shift=7 && bound "units with interrupts off, $level" "$(value lock.elf longest_lock)" $((lock / 5))
done

counts
