#!/bin/bash
# Runs scripts whose writers and reader meet in a ring again and again, and checks that each run ends with status 0 and with every statement told.
#
#   tests/threads.sh PROGRAM [TIMES]        1,000 times where it isn't said
#
# In blocking mode, beside a live reader, each run prints all lines, those of each writer in the order in which `print` has them:
#   device     40 strings, stamps, four writers with 500 statements each, a ring of 1,024 bytes; by `record`, and `decode` of that
#   pieces     two writers with frames of about 45 bytes in a ring of 16, so that each frame needs the reader
#   alone      the same where no thread can be started, so that one thread does the work of all; a tenth of the times
#   large      two writers with two frames each of more than 2,000 bytes in a ring of 16; a hundredth of the times
#   many       eight writers with 512 statements each in a ring of 16; a hundredth of the times
# By `term`, in blocking mode, each run prints all lines and then all texts, those of each writer in order, under their terminals:
#   talking    eight writers with 64 statements and 64 texts each, a ring of 16 bytes; the terminals' own ring has 1,024
#   wide       the same with a ring of 1,024 bytes
#   single     the same as `talking` where no thread can be started; a tenth of the times
# By `steer`, each run prints a line for each of 64 orders, and of the statements just those that aren't below the last order that their turns had heard:
#   steered    eight writers with 50 statements each, half of them errors, which no order mutes; a ring of 16 bytes. Stamps tell the turns
#   roomy      the same with a ring of 1,024 bytes and in profile 2, where the gaps are the turns that were muted
#   unaided    the same as `steered` where no thread can be started; a tenth of the times
# In skip mode, beside a live reader:
#   skipping   200 frames of a writer in a ring of 16. Lines and reports add up to 200, the reports stand behind the lines, each with a frame of 4
#              bytes and less room
# No run takes more than five minutes, for which a machine has to be very busy. The last line is 'N passed, M failed'.

. "$(dirname "$0")/runner.sh"
takes_program "$@"
times=${2:-1000}

# ---- the scripts; each text begins with its writer

device() {
    cat <<'SCRIPT'
ring 1024
mode block
reader live
stamp 1000 250
s num defmt_prim {=u8}
s opt defmt_prim None|Some({=?})
s point defmt_derived Point {{ x: {=i16}, y: {=i16} }}
s state defmt_derived Idle|Moving({=u8})|At({=?})
s route defmt_derived Route {{ from: {=?}, to: {=?}, state: {=?} }}
s cause defmt_derived Power|Watchdog|Other({=str})
s volts defmt_str volts
s amps defmt_str amps
s hours defmt_str hours
s meters defmt_str meters
SCRIPT
    awk 'BEGIN {
        split("trace debug info warn error", levels)
        text[0] = "boot, reason {2=?}"
        text[1] = "at {2=?:x}, read {3=[u8]:02x}"
        text[2] = "{2=?:?} by {3=istr}"
        text[3] = "name {2=str:?}, mask {3=0..4:#b} of {3=4..8}"
        text[4] = "list {2=[?]:x}, {3=bool}, {4=char:?}"
        text[5] = "took {2=u64:us}, {3=i32}, {4=[u8]:a}"
        for (i = 0; i < 30; i++) printf "s m%d defmt_%s {0=u8} number {1=u16} m%d %s\n", i, levels[i % 5 + 1], i, text[i % 6]
        for (i = 0; i < 2000; i++) {
            string = i * 7 % 30; form = string % 6; small = i % 256
            printf "w %d m%d %d %d ", i % 4, string, i % 4, int(i / 4)
            if (form == 0) print i % 3 == 2 ? "cause:2(\"line " i "\")" : "cause:" i % 3 "()"
            if (form == 1) printf "point(%d %d) #%02x%02xff\n", -i, i, small, 255 - small
            if (form == 2) printf "route(point(0 -1) opt:1(num(%d)) state:2(opt:%s)) @%s\n", small, i % 2 ? "0()" : "1(point(1 2))", i % 2 ? "volts" : "hours"
            if (form == 3) printf "\"sensor %d \\\"%s\\\"\" %d\n", i, i % 2 ? "left" : "right", small
            if (form == 4) printf "%s %s \x27%s\x27\n", i % 3 ? "num[(" small ") (0) (255)]" : "[]", i % 2 ? "true" : "false", i % 5 ? "x" : "\\n"
            if (form == 5) printf "%d %d #41%02x0a\n", i * 1000003, -i, small
        }
    }'
}
pieces() {
    printf 'ring 16\nmode block\ns say defmt_info {=u8} says {=u8} {=str}\n'
    for place in 0 1 2; do
        for writer in 0 1; do echo "w $writer say $writer $place \"abcdefghijklmnopqrstuvwxyzabcdefgh\""; done
    done
}
alone() { pieces; }
large() {
    awk 'BEGIN {
        print "ring 16\nmode block\nreader live\ns zero defmt_info 0 {=str}\ns one defmt_info 1 {=str}"
        letters = "abcdefghijklmnopqrstuvwxyz"
        while (length(letters) < 2100) letters = letters letters
        for (i = 0; i < 4; i++) printf "w %d %s \"%s\"\n", i % 2, i % 2 ? "one" : "zero", substr(letters, 1 + i, 1994)
    }'
}
many() {
    awk 'BEGIN {
        print "ring 16\nmode block\nreader live\ns hi defmt_info {=u8} {=u16}"
        for (i = 0; i < 4096; i++) printf "w %d hi %d %d\n", i % 8, i % 8, i / 8
    }'
}
talking() {
    awk -v size="${1:-16}" 'BEGIN {
        print "ring " size "\nmode block\nreader live\ns hi defmt_info {=u8} {=u16}"
        for (i = 0; i < 512; i++) {
            writer = i % 8; place = int(i / 8)
            printf "w %d hi %d %d\nt %d %d %d %d\n", writer, writer, place, writer, writer % 2 ? 3 : writer, writer, place
        }
    }'
}
wide() { talking 1024; }
single() { talking; }
steered() {
    awk -v size="${1:-16}" -v profile="${2:-1}" 'BEGIN {
        split("error trace warn info debug", words)
        print "ring " size "\nmode block\nreader live\nstamp 0 1\nprofile " profile
        for (i = 0; i < 64; i++) print "d", 3 * i, words[i % 5 + 1]
        print "s hi defmt_info {=u8} {=u16}\ns oh defmt_error {=u8} {=u16}"
        for (i = 0; i < 400; i++) { place = int(i / 8); print "w", i % 8, place % 2 ? "oh" : "hi", i % 8, place }
    }'
}
roomy() { steered 1024 2; }
unaided() { steered; }
skipping() {
    printf 'ring 16\nmode skip\nreader live\ns hi defmt_info hello\n'
    for ((place = 0; place < 200; place++)); do echo 'w 0 hi'; done
}

# ---- four ways to run one

by_run() { timeout 300 "$program" run < "$work/script"; }
by_term() { timeout 300 "$program" term < "$work/script"; }
by_steer() { timeout 300 "$program" steer < "$work/script"; }
apart() { timeout 300 "$program" record < "$work/script" > "$work/frames" && timeout 300 "$program" decode --table "$work/table.elf" < "$work/frames"; }

# ---- four checks, one of them in two forms. Each run ends in the line '== STATUS'; these count the runs that are as they should be.

# The lines that `print` gives come first. Those of a run are the same, but for the turns of the writers: the stamps in their places, the
# texts of each writer in order.
all_told='
    function read_line() {
        stamp = match($0, /^[0-9]+\.[0-9]+ /) ? substr($0, 1, RLENGTH) : ""
        text = substr($0, length(stamp) + 1)
        writer = $(stamp == "" ? 2 : 3)
    }
    NR == FNR { read_line(); stamps[FNR] = stamp; due[writer, ++count[writer]] = text; all++; next }
    /^== / {
        if ($2 == 0 && fine && lines == all) good++
        else if (bad++ < 5) { printf "run %d: status %s, lines %d, by writer", good + bad, $2, lines; for (w in count) printf " %s: %d of %d", w, told[w], count[w]; print "" }
        fine = 1; lines = 0; split("", told); next
    }
    { read_line(); lines++; told[writer]++; if (stamp != stamps[lines] || text != due[writer, told[writer]]) fine = 0 }
    BEGIN { fine = 1; lines = 0 }
    END { print good + 0, bad + 0 }'
# A statement tells its writer and place, and so does a text: those of an odd writer stand under terminal 3, the others under the writer's own number.
all_said='
    NR == FNR { all++; next }
    /^== terminal / { at = $3; heads = heads at; next }
    /^== / {
        if ($2 == 0 && fine && lines == all && texts == all && heads == "02346") good++
        else if (bad++ < 5) print "run " good + bad ": status " $2 ", lines " lines ", texts " texts ", terminals " heads
        fine = 1; lines = texts = 0; heads = at = ""; split("", told); split("", said); next
    }
    at == "" { lines++; if ($1 != "INFO" || $3 != told[$2]++) fine = 0; next }
    { texts++; if (at != ($1 % 2 ? 3 : $1) || $2 != said[$1]++) fine = 0 }
    BEGIN { fine = 1; lines = texts = 0; heads = at = "" }
    END { print good + 0, bad + 0 }'
# The stamp of a line is its turn. Behind the lines, each order tells the turn that heard it first. So the floor of each turn is known: an error is always told, another
# statement just where the floor doesn't mute it.
all_steered='
    NR == FNR { all++; errors += $2 == "ERROR"; next }
    /^-- gap [0-9]+$/ && orders == 0 && gap == 0 { gap = $3; next }
    /^-- level / {
        from[orders] = $0 == "-- level " words[orders % 5 + 1] " unheard" ? all : $6
        if (from[orders] < all && $0 != "-- level " words[orders % 5 + 1] " from turn " $6) fine = 0
        if (from[orders] > all || orders > 0 && from[orders] < from[orders - 1]) fine = 0
        orders++; next
    }
    /^== / {
        heard = 0; mutes = 0
        for (turn = 0; turn < all; turn++) {
            for (; heard < orders && from[heard] <= turn; heard++) mutes = words[heard % 5 + 1] ~ /warn|error/
            if (turn in told ? mutes && told[turn] != "ERROR" : ! mutes) fine = 0
        }
        if ($2 == 0 && fine && orders == 64 && from[0] == 0 && sent == errors) good++
        else if (bad++ < 5) print "run " good + bad ": status " $2 ", lines " lines ", errors " sent ", orders " orders ", of which turns heard " heard
        start(); next
    }
    orders == 0 && ($2 == "INFO" || $2 == "ERROR") {
        turn = int($1 * 1000000 + 0.5); lines++; sent += $2 == "ERROR"; told[turn] = $2
        if (turn <= last || turn >= all || gap != (gaps && last >= 0 ? turn - last - 1 : 0)) fine = 0
        if ($3 in places && $4 <= places[$3] || ($4 % 2 ? "ERROR" : "INFO") != $2) fine = 0
        last = turn; gap = 0; places[$3] = $4; next
    }
    { fine = 0 }
    function start() { fine = 1; lines = sent = orders = gap = 0; last = -1; split("", told); split("", from); split("", places) }
    BEGIN { split("error trace warn info debug", words); start() }
    END { print good + 0, bad + 0 }'
all_gapped='BEGIN { gaps = 1 }'$all_steered
told_or_reported='
    NR == FNR { next }
    /^== / { if ($2 == 0 && fine && lines + reports == 200) good++; else if (bad++ < 5) print "run " good + bad ": status " $2 ", lines " lines ", reports " reports
        fine = 1; lines = reports = 0; next }
    $0 == "INFO  hello" && reports == 0 { lines++; next }
    /^-- dropped writer 0 statement [0-9]+ need 4 room [0-3]$/ { reports++; next }
    { fine = 0 }
    BEGIN { fine = 1; lines = reports = 0 }
    END { print good + 0, bad + 0 }'

# run_all NAME COUNT WAY CHECK LIMIT..: runs the script of this name so many times, each under these limits, and checks what was printed
run_all() {
    form=$1 count=$2 way=$3 check=$4
    shift 4
    "$form" > "$work/script"
    "$program" print < "$work/script" > "$work/due" && [ -s "$work/due" ] && "$program" table < "$work/script" > "$work/table.elf" || { echo "FAILED: the script $form isn't read"; failed=$((failed + count)); return; }
    for ((run = 0; run < count; run++)); do
        (for limit; do ulimit $limit; done; "$way")
        echo "== $?"
    done > "$work/runs" 2> "$work/said"
    awk "$check" "$work/due" "$work/runs" > "$work/counts"
    sed '$d' "$work/counts"
    read -r good bad < <(tail -n 1 "$work/counts")
    echo "$form: $good of $count runs are as they should be"
    passed=$((passed + good)) failed=$((failed + count - good))
    sort "$work/said" | uniq -c | head -n 5
}

run_all device "$times" apart "$all_told"
run_all pieces "$times" by_run "$all_told"
run_all alone $(((times + 9) / 10)) by_run "$all_told" '-s 1000000' '-v 500000'
run_all large $(((times + 99) / 100)) by_run "$all_told"
run_all many $(((times + 99) / 100)) by_run "$all_told"
run_all talking "$times" by_term "$all_said"
run_all wide "$times" by_term "$all_said"
run_all single $(((times + 9) / 10)) by_term "$all_said" '-s 1000000' '-v 500000'
run_all steered "$times" by_steer "$all_steered"
run_all roomy "$times" by_steer "$all_gapped"
run_all unaided $(((times + 9) / 10)) by_steer "$all_steered" '-s 1000000' '-v 500000'
run_all skipping "$times" by_run "$told_or_reported"
counts
