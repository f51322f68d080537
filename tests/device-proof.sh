#!/bin/bash
# Proves the core of the device's side, device/defmtl_core.h with device/defmtl_ring.h, by Frama-C's WP: each contract, and that no access is out of bounds. The goals
# are counted, so that one that is lost shows. Then it puts wrong bodies in place of right ones, each of which has to leave a goal of
# its function unproved.
#
#   tests/device-proof.sh
#
# It needs frama-c with why3, z3 and cvc4 (Debian: frama-c-base, z3, cvc4). The last line is 'N passed, M failed'. PROCESSORS tells how many goals
# are tried side by side; all of them, where it isn't given.
. "$(dirname "$0")/runner.sh"
[ $# -eq 0 ] || { echo "usage: tests/device-proof.sh"; exit 2; }
needs frama-c why3 z3 cvc4 python3
device=$top/device wrong=$top/tests/device/wrong.py goals=344 goals_large=82
cd "$work" && mkdir cache || exit 2
export HOME=$work
why3 config detect > said 2>&1
grep -q Z3 .why3.conf && grep -q CVC4 .why3.conf || { skip "all: why3 finds no z3 and cvc4, which the packages z3 and cvc4 bring"; counts; }
echo '#include "defmtl_core.h"' > core.c

# prove SECONDS FLAG..: the last line that counts goals, as 'PROVED ALL'
prove() {
    local seconds=$1
    shift
    frama-c -wp -wp-rte -wp-cache update -wp-cache-dir "$work/cache" -wp-prover z3,cvc4 -wp-timeout "$seconds" -wp-par "${PROCESSORS:-$(nproc)}" "$@" core.c > said 2>&1
    sed -n 's/.*Proved goals: *\([0-9]*\) *\/ *\([0-9]*\).*/\1 \2/p' said | tail -n 1
}

# expect WHAT GOALS FLAG..
expect() {
    local what=$1 due=$2 counts seconds
    shift 2
    # (on a slow or busy machine a prover may need longer; what was found before comes from the cache)
    for seconds in 30 150; do
        counts=$(prove $seconds "$@")
        [ "$counts" = "$due $due" ] && break
    done
    if [ "$counts" = "$due $due" ]; then pass "$what: $due of $due goals"; else
        fail "$what: '$counts' in place of $due of $due goals"
        grep -A 2 -E 'Failed|Timeout|Unknown|rror' said | head -n 12
    fi
}
cp "$device"/defmtl_core.h "$device"/defmtl_ring.h .
expect "each function, for messages of 128 bytes" $goals -cpp-extra-args="-I$work"
expect "what makes frames, for messages of 2000 bytes" $goals_large -cpp-extra-args="-I$work -DDEFMTL_MESSAGE=2000" \
    -wp-fct defmtl_add,defmtl_frame_end

# Each function is proved by itself, from the contracts of those it calls: so one run tries a wrong body in each.
for round in 0 1 2 3; do
    python3 "$wrong" list $round > wrongs
    [ -s wrongs ] || break
    python3 "$wrong" "$device" $round || { fail "the texts of the wrong bodies are there once"; continue; }
    functions=$(cut -f 1 wrongs | sed 's/^all$/defmtl_add,defmtl_frame_end/' | paste -s -d ,)
    prove 3 -cpp-extra-args="-I$work -DDEFMTL_MESSAGE=300" -wp-fct "$functions" > counts
    while IFS=$'\t' read -r function words; do
        [ "$function" = all ] && function=defmtl
        if grep -qE "\\[(Failed|Timeout|Unknown|Stepout)\\] Goal typed_${function}_" said; then pass "refused: $words"; else fail "not refused: $words"; fi
    done < wrongs
done
counts
