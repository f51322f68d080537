# What the scripts of tests/ share: one way to count, to skip and to end. A script begins with
#
#   . "$(dirname "$0")/runner.sh"
#   takes_program "$@"        where it runs the program: $program is that file then
#   needs COMMAND..           where it can't do without these
#
# and ends with `counts`. $top is the repository, $work a folder that is removed at the end. A line 'FAILED: ..' tells what failed, and a line
# 'skipped: WHAT: there is no COMMAND, which the package PACKAGE brings' what wasn't tried. The last line is 'N passed, M failed', with
# ', K skipped' behind it where something was. The status is 0 where nothing failed. tests/all.sh runs them all, and tells the time of each.

top=$(realpath "$(dirname "${BASH_SOURCE[0]}")/..") && work=$(mktemp -d) || exit 2
trap 'rm -rf "$work"' EXIT
passed=0 failed=0 skipped=0

pass() { passed=$((passed + 1)); }
fail() { failed=$((failed + 1)); echo "FAILED: $*"; }
is() { if [ "$2" = "$3" ]; then pass; else fail "$1: '$2' and not '$3'"; fi; }
has() { if [[ $2 == *"$3"* ]]; then pass; else fail "$1: '$3' is not in '$2'"; fi; }
lacks() { if [[ $2 != *"$3"* ]]; then pass; else fail "$1: '$3' is in '$2'"; fi; }

# same WHAT DUE GOT: two files are the same
same() { if cmp -s "$2" "$3"; then pass; else fail "$1"; diff "$2" "$3" | head -n 20; fi; }

# takes_program WORD..: of a script whose first word is the program
takes_program() {
    { [ $# -ge 1 ] && program=$(realpath "$1") && [ -x "$program" ]; } || { echo "usage: $0 PROGRAM ..; there is no program '$1'"; exit 2; }
}

# The Debian package that brings a command.
package_of() {
    case $1 in
        arm-none-eabi-gcc) echo 'gcc-arm-none-eabi with libnewlib-arm-none-eabi' ;;
        arm-none-eabi-g++) echo 'libstdc++-arm-none-eabi-newlib' ;;
        arm-none-eabi-*) echo binutils-arm-none-eabi ;;
        ld | ld.bfd | ld.gold | nm | objcopy | readelf | strip) echo binutils ;;
        ld.lld) echo lld ;;
        cc) echo gcc ;;
        clang++) echo clang ;;
        cmp | diff) echo diffutils ;;
        frama-c) echo frama-c-base ;;
        gnuplot) echo gnuplot-nox ;;
        man) echo man-db ;;
        nc) echo netcat-openbsd ;;
        script) echo bsdutils ;;
        scp | ssh | ssh-keygen) echo openssh-client ;;
        sshd) echo openssh-server ;;
        *) echo "$1" ;;
    esac
}

# skip WHAT [COMMAND]: tells what isn't tried, and which command is missing for it
skip() {
    skipped=$((skipped + 1))
    echo "skipped: $1${2:+: there is no $2, which the package $(package_of "$2") brings}"
}

# can WHAT COMMAND..: whether all of these are there; else WHAT is skipped
can() {
    local it what=$1
    for it in "${@:2}"; do
        command -v "$it" > /dev/null || { skip "$what" "$it"; return 1; }
    done
}

# needs COMMAND..: skips the whole script where one of these isn't there
needs() { can "all of tests/${0##*/}" "$@" || counts; }

# Tells what was counted, and ends the script.
counts() {
    echo "$passed passed, $failed failed$([ "$skipped" -eq 0 ] || echo ", $skipped skipped")"
    [ "$failed" -eq 0 ] && [ $((passed + skipped)) -gt 0 ]
    exit
}
