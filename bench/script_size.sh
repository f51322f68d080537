#!/bin/sh
# Counts the instructions of `defmtl print` for scripts of growing size, up to the greatest that is read.
#
#   bench/script_size.sh        at the repository's top, once ./defmtl has built the program; needs valgrind and GNU time
#
# Three forms of scripts: as many statements as strings; as many strings as a script may have; statements with long texts. A script twice
# as long has a ratio of about 2: names are found by their hashes. A walk over all strings for each line would make it 4.

. "$(dirname "$0")/common.sh"
need valgrind time

# Each statement is of another string.
pairs() {
    awk -v count="$1" 'BEGIN {
        for (i = 0; i < count; i++) printf "s name%05d defmt_info text number %05d\n", i, i
        for (i = 0; i < count; i++) printf "w 0 name%05d\n", (i * 7919) % count
    }'
}

# COUNT strings of 64 bytes a line, and one statement.
strings() {
    awk -v count="$1" 'BEGIN {
        for (i = 0; i < count; i++) printf "s name%05d defmt_info text number %05d of this long table\n", i, i
        print "w 0 name00000"
    }'
}

# COUNT statements, each with a text that fills its line up to 1,023 bytes and a newline.
texts() {
    awk -v count="$1" 'BEGIN {
        print "s say defmt_info {=str}"
        letters = "abcdefghijklmnopqrstuvwxyz"
        while (length(letters) < 1011) letters = letters letters
        for (i = 0; i < count; i++) printf "w %d say \"%s\"\n", i % 8, substr(letters, 1 + i % 8, 1011)
    }'
}

# rows FORM COUNT..: a row for each size, and the ratio of each to the one before it
rows() {
    form=$1 before=
    shift
    for count; do
        "$form" "$count" > "$work/script"
        ran=$(measured 3 1 "$work/script" print) && instructions=$(counted print < "$work/script") || exit 1
        bytes=$(wc -c < "$work/script")
        last=$(ratio "$before" "$instructions")
        printf '%-8s %7d %9d %14d %8d %7s %8s %8s\n' "$form" "$count" "$bytes" "$instructions" $((instructions / bytes)) "${before:+$last}" $ran
        before=$instructions
    done
    judge "$form: the ratio of the last to the one before it" "$last" 2.2
}

printf '%-8s %7s %9s %14s %8s %7s %8s %8s\n' form count bytes instructions "a byte" ratio seconds KiB
rows pairs 1000 2000 4000
rows strings 32700 65500
rows texts 2047 4095
exit "$worst"
