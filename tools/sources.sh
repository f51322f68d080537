# What the launcher and the build share: what they say, and whether the program is built. $top is the repository and $program the program.

shopt -s extglob nullglob

tell() { printf 'defmtl: %s\n' "$*" >&2; }

give_up() {
    tell "${@:2}"
    exit "$1"
}

# A line for each source, and for each file that is named: its place, its inode and when it was last changed, moved or replaced. The crates of tests and
# the measured rings are no part of the program.
state_of() {
    (
        cd "$top" &&
            exec find crates.txt HANDLES crates/!(*_tests|test_rows|ring_bench)/{src,specs,proofs} "$@" -type f -printf '%p %i %C@\n' 2> /dev/null
    )
}

# Beside the program lies what it was built of, and which file it was then.
is_built() { state_of "${program#"$top"/}" | cmp -s - "$program.sources"; }
