#!/bin/bash
# Runs the scripts of tests/, and tells at the end how long each took, what was skipped, and what all of them count.
#
#   tests/all.sh PROGRAM [NAME..]     all of them, or those of these names, as `tests/all.sh PROGRAM guide live`
#
# Those that go by chance or many times go fewer times here than they do alone. A script whose last line counts nothing has failed. The last line is
# 'N passed, M failed', with ', K skipped' behind it where something was.
top=$(realpath "$(dirname "$0")/..") || exit 2
[ $# -ge 1 ] || { echo 'usage: tests/all.sh PROGRAM [NAME..]'; exit 2; }
program=$(realpath -m "$1")
shift
said=$(mktemp) || exit 2
trap 'rm -f "$said"' EXIT
passed=0 failed=0 skipped=0 times=() left=()

# try NAME WORD..: runs a script, and adds what its last line counts
try() {
    local began=$SECONDS status
    echo "== tests/$*"
    bash "$top/tests/$1" "${@:2}" 2>&1 | tee "$said"
    status=${PIPESTATUS[0]}
    times+=("$((SECONDS - began)) s tests/$1")
    while IFS= read -r it; do left+=("tests/$1: ${it#skipped: }"); done < <(grep '^skipped: ' "$said")
    if [[ $(tail -n 1 "$said") =~ ^([0-9]+)' passed, '([0-9]+)' failed'(', '[0-9]+' skipped')?$ ]]; then
        passed=$((passed + BASH_REMATCH[1])) failed=$((failed + BASH_REMATCH[2]))
        [ "$status" -eq 0 ] || [ "${BASH_REMATCH[2]}" -gt 0 ] || { failed=$((failed + 1)); echo "FAILED: tests/$1 ended with status $status"; }
    else
        failed=$((failed + 1))
        echo "FAILED: tests/$1 ended with status $status, and its last line counts nothing"
    fi
}

# The words behind the name of a script; those that run no program need none.
words_of() {
    case $1 in
        device-proof.sh | launcher.sh | clauses.sh | pages.sh) ;;
        threads.sh) echo "$program 20" ;;
        device.sh) echo "$program 500" ;;
        damage.sh | fuzz.sh) echo "$program 1000" ;;
        jobs.sh) echo "$program 300" ;;
        *) echo "$program" ;;
    esac
}

# (in brackets, so that bash has read it all before the first script, for this file may change meanwhile)
{
    if [ $# -gt 0 ]; then scripts=("${@/%/.sh}"); else
        cd "$top/tests" || exit 2
        scripts=(real-elf.sh rust-firmware.sh firmware.sh device*.sh live.sh parallel.sh guide.sh explain.sh threads.sh brackets.sh failing-calls.sh refused-memory.sh damage.sh fuzz.sh jobs.sh launcher.sh clauses.sh pages.sh places.sh swap.sh looking.sh)
        cd "$top" || exit 2
    fi
    for it in "${scripts[@]}"; do
        [ -f "$top/tests/$it" ] || continue
        read -r -a words <<< "$(words_of "$it")"
        if [ ${#words[@]} -eq 0 ] || [ -x "$program" ]; then try "$it" "${words[@]}"; else left+=("tests/$it: there is no $program"); fi
    done
    echo '== how long each took'
    printf '%s\n' "${times[@]}" | sort -rn
    skipped=${#left[@]}
    if [ "$skipped" -gt 0 ]; then
        echo '== what was skipped'
        printf '%s\n' "${left[@]}"
    fi
    echo "$passed passed, $failed failed$([ "$skipped" -eq 0 ] || echo ", $skipped skipped")"
    [ "$failed" -eq 0 ] && [ "$passed" -gt 0 ]
    exit
}
