#!/bin/bash
# Tries the tools that show a log rather than print it: tools/timeline, and tools/for-lnav with the format of tools/lnav, each on a log in JSON.
#
#   tests/looking.sh [PROGRAM]       with a program, the log is what its `run --json` writes, too
#
# It needs jq, lnav, gnuplot and python3. The last line is 'N passed, M failed'.
. "$(dirname "$0")/runner.sh"
[ $# -eq 0 ] || takes_program "$@"

# due WHAT DUE GOT
due() { is "$1" "$3" "$2"; }

cd "$work" || exit 2
export HOME=$work TERM=xterm LC_ALL=C.UTF-8
# 40 statements of two packages within 4 seconds, the first of them within the first one; a gap, a fault, a dropped frame, a println, and a text that
# the tools could read as words of their own
seq 0 39 | awk '{
    level = $1 % 10 == 9 ? "ERROR" : $1 % 2 ? "INFO" : "DEBUG"
    printf "{\"event\":\"line\",\"index\":%d,\"bytes\":%d,\"target_timestamp\":\"%d.%d00000\",\"level\":\"%s\",\"package\":\"%s\",\"data\":\"count %d\"}\n", $1 % 2 + 1, $1 % 2 ? 5 : 12, $1 / 10, $1 % 10, level, $1 % 2 ? "net" : "motor", $1
    if ($1 == 20) print "{\"event\":\"gap\",\"frames\":300}"
    if ($1 == 25) print "{\"event\":\"fault\",\"cause\":1,\"name\":\"Cobs\"}"
    if ($1 == 30) print "{\"event\":\"dropped\",\"writer\":0,\"statement\":3,\"need\":4,\"room\":3}"
} END { print "{\"event\":\"line\",\"index\":3,\"bytes\":9,\"package\":\"motor\",\"data\":\"it'"'"'s \\u001b[31m <b> & \\\\ %d {/Bold x} é\"}" }' > log.json

# ---- the picture

words_of() { python3 -c '
import sys, xml.dom.minidom
for text in xml.dom.minidom.parse(sys.argv[1]).getElementsByTagName("text"):
    print("".join(part.data for span in text.childNodes for part in (span.childNodes or [span]) if part.nodeType == part.TEXT_NODE).strip())' "$1"; }
if can "the picture of a log" python3 gnuplot; then
    "$top/tools/timeline" < log.json > log.svg 2> said && words_of log.svg > words
    for it in '41 lines' 'ERROR' 'INFO' 'DEBUG' 'println' 'frames missing' 'faults' 'frames dropped or cut' '240 bytes in 20: motor: count 0' '100 bytes in 20: net: count 1'; do
        if grep -qxF -- "$it" words; then pass; else fail "the picture says '$it'"; fi
    done
    if grep -qF "9 bytes in 1: motor: it's  [31m <b> & \\ %d {/Bold x} é" words; then pass; else fail "a text stands in the picture as it is"; grep 'it.s' words; fi
    for count in 1 2; do
        if head -n $count log.json | "$top/tools/timeline" > one.svg 2> said && words_of one.svg > words; then pass; else fail "a log of $count"; cat said; fi
    done
    if sed 's/"target_timestamp":"[^"]*",//' log.json | "$top/tools/timeline" > one.svg 2> said && words_of one.svg | grep -qx 'number of the object'; then pass; else fail "a log without stamps"; fi
    echo '{"event":"line"' | "$top/tools/timeline" > one.svg 2> said
    due "what is no log ends with 65 and its line" "65 timeline: line 1 isn't of a log in JSON" "$? $(cat said)"
fi

# ---- lnav

if can "a log in lnav" jq lnav; then
    "$top/tools/for-lnav" < log.json > dated.json
    due "each object has a time and a text" "$(grep -c '' log.json)" "$(jq -r 'select((.time | test("^2000-01-01T00:00:0[0-3][.][0-9]+Z$")) and (.data | type == "string")) | .event' dated.json | grep -c '')"
    due "a fault has the time of the line in front of it" '2000-01-01T00:00:02.500000Z E1 Cobs' "$(jq -r 'select(.event == "fault") | .time + " " + .data' dated.json)"
    mkdir -p look/formats/defmtl && cp "$top/tools/lnav/defmtl.json" look/formats/defmtl/
    ask() { timeout 60 lnav -n -I look "$@" dated.json 2>&1; }
    due "lnav counts the lines by level and package" "critical - 3 debug motor 20 error net 4 info motor 1 info net 16" \
        "$(ask -c ';select log_level, package, count(*) from defmtl_log group by log_level, package order by log_level collate binary' | tail -n +2 | xargs)"
    due "lnav takes no object without that time" "0" "$(timeout 60 lnav -n -I look -c ';select count(*) from defmtl_log' log.json 2>&1 | grep -cE '^ *[1-9]')"
    due "lnav filters by level" "3 4" "$(ask -c ':set-min-log-level error' | awk '/FAULT/ { a++ } /ERROR/ { b++ } END { print a, b }')"
    due "lnav filters by package" "20" "$(ask -c ":filter-expr :package = 'net'" | grep -c ' net ')"
    due "lnav searches" "00:00:03.700 INFO  net      count 37" "$(ask -c ':filter-in count 37' | grep 'count 37')"
    due "lnav shows a histogram" "4" "$(ask -c ':zoom-to 1-second' -c ':switch-to-view histogram' | grep -c ' normal ')"
fi

if [ $# -eq 1 ] && can "what run --json writes" jq; then
    if "$program" run --json < "$top/examples/hello.defmtl" > run.json 2> said; then
        due "what run --json writes is taken" "$(grep -c '' run.json)" "$("$top/tools/for-lnav" < run.json | jq -r 'select(.time and .data) | .event' | grep -c '')"
    else
        skip "what run --json writes: the program has no --json"
    fi
fi
counts
