#!/bin/bash
# Reads statements whose arguments are a million brackets in one another: a reader that followed them by calls would run out of its stack.
#
#   tests/brackets.sh PROGRAM
#
# Each is refused as its first fault says: inner number 1 where the text spells no value, and 6 where it does and is too deep. The stack has 256
# KiB. The last line is 'N passed, M failed'.

. "$(dirname "$0")/runner.sh"
takes_program "$@"

# many TEXT: a million times
many() { yes "$1" | head -n 1000000 | tr -d '\n'; }

# refused WHAT STRING INNER: the standard input is the arguments of a statement of this string, which are refused with this inner number
refused() {
    { printf '%s\n' 's n defmt_prim {=?}' 's l defmt_prim {=[?]}' 's value defmt_info {=?}' 's list defmt_info {=[?]}'; printf 'w 0 %s ' "$2"; cat; } > "$work/script"
    said=$( (ulimit -s 256; exec timeout 300 "$program" print < "$work/script") 2>&1)
    status=$?
    is "$1" "$status $said" "5 script line 5 cause 4 inner $3"
}

refused 'round brackets alone' value 1 < <(many '(')
refused 'square brackets alone' list 1 < <(many '[')
refused 'values that are open' value 1 < <(many 'n(')
refused 'lists that are open' list 1 < <(many 'l[(')
refused 'round brackets that square ones close' value 1 < <(many 'n('; many ']')
refused 'a quote within closed brackets' value 1 < <(many 'n('; printf '"'; many ')')
refused 'values that are closed' value 6 < <(many 'n('; many ')')
refused 'lists that are closed' list 6 < <({ yes 'l[(' | head -n 800000; yes ')]' | head -n 800000; } | tr -d '\n')

counts
