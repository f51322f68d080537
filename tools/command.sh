# What the launcher and the installed command do with words: they show the help and the version, or run the program and explain a refusal.
# $program is the program, $pages the folder with commands.txt and EXPLAIN.md, and $tools the one with explain.

# Shows what docs/commands.txt has under a name.
show() {
    local line here= found=
    while IFS= read -r line; do
        case $line in
            "== $1") here=1 found=1 ;;
            '== '*) here= ;;
            *) [ -z "$here" ] || printf '%s\n' "$line" ;;
        esac
    done < "$pages/commands.txt"
    [ -n "$found" ]
}

show_version() {
    if [ -r "$program.version" ]; then cat "$program.version"; elif [ -x "$program" ]; then echo defmtl; else echo 'defmtl, of which no proved program is built yet'; fi
}

# Ends the call where words ask for help or the version.
answer() {
    local word
    case $1 in
        '') show defmtl >&2 && return ;;
        -V | --version) show_version && exit 0 ;;
        -h | --help) show defmtl && exit 0 ;;
        help)
            show "${2:-defmtl}" && exit 0
            printf 'defmtl: there is no command %s; defmtl --help shows all\n' "$2" >&2
            exit 2
            ;;
    esac
    for word; do
        case $word in
            --) return ;;
            -h | --help) { show "$1" || show defmtl; } && exit 0 ;;
        esac
    done
}

# Runs the program in the caller's place. Where a person reads the standard error, the caller stays to explain a refusal. (Not where the input or the
# output is closed: a pipe of its own would take its place.)
run() {
    local said status start=0 input=/dev/null
    # A write past the limit of a file's size is refused then, and doesn't end the program.
    trap '' XFSZ
    { [ -t 2 ] && [ -e /dev/fd/0 ] && [ -e /dev/fd/1 ] && [ -r "$pages/EXPLAIN.md" ]; } || exec "$program" "$@"
    trap - HUP INT TERM
    # (where the input begins, in case it is a file and has to be looked at again)
    { read -r -u 3 _ start; } 3< "/proc/$$/fdinfo/0" 2> /dev/null
    { said=$("$program" "$@" 2>&1 >&6 6>&-) && status=0 || status=$?; } 6>&1
    [ -z "$said" ] || printf '%s\n' "$said" >&2
    [ ! -f /dev/fd/0 ] || input=/dev/fd/0
    { [ "$status" -eq 0 ] || [ $# -eq 0 ]; } || "$tools/explain" "$pages/EXPLAIN.md" "$start" "$status" "${said##*$'\n'}" "$@" < "$input" >&2 2> /dev/null
    exit "$status"
}
