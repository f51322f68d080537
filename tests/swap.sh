#!/bin/bash
# Swaps the file of a table, and that of the places, by `mv` while the program reads them, and sees that each call prints by the old file or by the new
# one as a whole, and never by parts of both.
#
#   tests/swap.sh PROGRAM [CALLS]     so many calls for each of the two; 1,000 where it isn't said
#
# The files are long enough to be read in many parts, and the two of a pair have the same lengths, so that a part of one fits the other. It needs python3.
# The last line is 'N passed, M failed'.
. "$(dirname "$0")/runner.sh"
takes_program "$@"
needs python3
calls=${2:-1000}
cd "$work" || exit 2

# Sixty strings of some 3,000 bytes each, which all begin with a letter, and statements of all of them.
python3 - << 'PYTHON'
for it in "ab":
    strings = [f"s n{n} defmt_info {it}{n} {'.' * 3000}" for n in range(60)]
    with open(it, "w") as out:
        print(*strings, *(f"w 0 n{n}" for n in range(60)), sep="\n", file=out)
    with open(f"{it}.places", "w") as out:
        print(*(f"{n} {it}.rs:{n} {'.' * 3000}" for n in range(1, 61)), sep="\n", file=out)
PYTHON
for it in a b; do
    "$program" table < $it > $it.elf && "$program" record < $it > $it.bin && "$program" decode --table $it.elf < $it.bin > $it.lines || exit 2
done
same 'the two tables have the same frames' a.bin b.bin
is 'the two tables are of one length' "$(wc -c < a.elf)" "$(wc -c < b.elf)"

# swapped WHAT NAME WORD..: calls the program while the file NAME is a, then b, then a and so on, and compares what it prints with a.DUE and b.DUE
swapped() {
    python3 - "$calls" "$program" "$@" << 'PYTHON'
import os, subprocess, sys, threading

calls, program, what, name, due, *words = sys.argv[1:]
whole = {open(f"{it}.{due}", "rb").read(): it for it in "ab"}
done = threading.Event()


def swap():
    turn = 0
    while not done.is_set():
        turn += 1
        os.link(f"{'ab'[turn % 2]}.{name}", "new")
        os.replace("new", f"now.{name}")


os.link(f"a.{name}", f"now.{name}")
swapping = threading.Thread(target=swap)
swapping.start()
seen = {"a": 0, "b": 0}
wrong = []
for _ in range(int(calls)):
    with open("a.bin", "rb") as it:
        ended = subprocess.run([program, *words], stdin=it, capture_output=True)
    if ended.returncode == 0 and ended.stdout in whole:
        seen[whole[ended.stdout]] += 1
    else:
        firsts = {line[6:7].decode(errors="replace") for line in ended.stdout.split(b"\n") if line}
        wrong.append(f"status {ended.returncode}, {ended.stderr.decode(errors='replace').strip() or 'a mixture'} of {sorted(firsts)}")
done.set()
swapping.join()
os.remove(f"now.{name}")
print(f"{what}: {seen['a']} calls by the one file, {seen['b']} by the other, {len(wrong)} by neither" + (f", as {wrong[0]}" if wrong else ""))
sys.exit(bool(wrong) or not all(seen.values()))
PYTHON
}

if swapped 'a table that is swapped' elf lines decode --table now.elf; then pass; else fail 'a table that is swapped by mv is read as a whole'; fi
if "$program" decode --table a.elf --places a.places < a.bin > a.placed 2> /dev/null; then
    "$program" decode --table a.elf --places b.places < a.bin > b.placed || exit 2
    if swapped 'places that are swapped' places placed decode --table a.elf --places now.places; then pass; else fail 'places that are swapped by mv are read as a whole'; fi
else
    fail 'places are printed'
fi
counts
