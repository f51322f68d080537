# Read by the scripts beside it, and no script of its own: the program, a folder to work in, inputs and counts.

top=$(cd "$(dirname "$0")/.." && pwd) || exit 1
program=${DEFMTL:-$top/crates/defmt_cli/out/defmt_cli}
[ -x "$program" ] || { echo "there is no $program: run ./defmtl once, or name a program by DEFMTL" >&2; exit 1; }
work=$(mktemp -d) || exit 1
trap 'rm -rf "$work"' EXIT
export LC_ALL=C

# need COMMAND..: ends where one of them isn't there; `time` is GNU's program, and not the word of a shell
need() {
    for each; do
        case $each in
            time) env time -o /dev/null -f %U true ;;
            *) command -v "$each" > /dev/null ;;
        esac || { echo "there is no $each" >&2; exit 1; }
    done
}

# counted WORD..: how many instructions the program executes with these words on the standard input
counted() {
    valgrind --tool=callgrind --callgrind-out-file=/dev/null "$program" "$@" > "$work/out" 2> "$work/log" || {
        echo "$* ended with status $?: $(tail -n 2 "$work/log")" >&2
        exit 1
    }
    sed -n 's/.*Collected : \([0-9]*\).*/\1/p' "$work/log"
}

# measured ROUNDS TIMES INPUT WORD..: the seconds of processor time of so many runs of the program one after the other, in the least of the
# rounds, and its peak memory in KiB
measured() {
    rounds=$1 times=$2 input=$3
    shift 3
    : > "$work/rounds"
    while [ "$rounds" -gt 0 ]; do
        rounds=$((rounds - 1))
        env time -a -o "$work/rounds" -f '%U %S %M' sh -c '
            times=$1 input=$2
            shift 2
            while [ "$times" -gt 0 ]; do
                "$@" < "$input" > /dev/null || exit 1
                times=$((times - 1))
            done' sh "$times" "$input" "$program" "$@" || { echo "$* ended with a fault" >&2; exit 1; }
    done
    awk '{ spent = $1 + $2; if (NR == 1 || spent < least) least = spent; if ($3 > peak) peak = $3 } END { printf "%.2f %d\n", least, peak }' "$work/rounds"
}

# ratio PART WHOLE: their quotient with two digits
ratio() {
    awk -v part="$1" -v whole="$2" 'BEGIN { printf "%.2f", (part > 0 ? whole / part : 0) }'
}

# judge NAME VALUE MOST: prints whether the value is within its bound; where it isn't, the script's status is 1 at its end
judge() {
    awk -v name="$1" -v value="$2" -v most="$3" 'BEGIN {
        printf "%s: %s, at most %s is due: %s\n", name, value, most, value <= most ? "passed" : "failed"
        exit value <= most ? 0 : 1
    }' || worst=1
}
worst=0

# generated COUNT: the script of `defmtl gen COUNT`: five strings, a stamp, four writers
generated() {
    cat <<'SCRIPT'
ring 1024
mode block
reader live
stamp 1000 250
s boot defmt_info boot {=u8}
s temp defmt_debug temp {=i16} of {=[u8]:02x}
s link defmt_warn link {=bool} {=str:?}
s fail defmt_error fail {=u32:#010x}
s tick defmt_trace tick {=u64}
SCRIPT
    awk -v count="$1" 'BEGIN {
        for (i = 0; i < count; i++) {
            x = (i * 1103515245 + 12345) % 4294967296
            printf "w %d ", i % 4
            if (i % 5 == 0) printf "boot %d\n", x % 256
            if (i % 5 == 1) printf "temp %d #%02x%02x%02x\n", x % 2001 - 1000, x % 256, int(x / 256) % 256, int(x / 65536) % 256
            if (i % 5 == 2) printf "link %s \"port%d\"\n", x % 2 == 0 ? "true" : "false", x % 10
            if (i % 5 == 3) printf "fail %.0f\n", x
            if (i % 5 == 4) printf "tick %.0f\n", x
        }
    }'
}
