#!/bin/bash
# Makes the pages of the words by tools/pages, and sees that docs/ has just these: what `defmtl help` shows, the page of the manual and the completion;
# and that their table, docs/options.txt, has the parameters which the program reads, as crates/defmt_words/src/job.rt and style.rt list them.
#
#   tests/pages.sh
#
# It needs python3. The last line is 'N passed, M failed'.
. "$(dirname "$0")/runner.sh"
needs python3

mkdir "$work/docs" && "$top/tools/pages" "$work/docs" || exit 2
for it in commands.txt defmtl.1 defmtl.completion; do same "docs/$it isn't what tools/pages makes of docs/options.txt" "$work/docs/$it" "$top/docs/$it"; done

# A parameter's name, its kind, the commands that take it and those that need it
python3 - "$top"/crates/defmt_words/src/{job,style}.rt > "$work/due" << 'PYTHON'
import re, sys

text = "".join(open(it, encoding="utf-8").read() for it in sys.argv[1:])
row = r'name: "([a-z-]+)",\s*kind: Kind::(\w+),\s*taken: &\[([^]]*)\],\s*needed: &\[([^]]*)\],'
words = lambda those: ",".join(sorted(re.findall(r'"(\w+)"', those))) or "-"
rows = [f"{name} {kind} {words(taken)} {words(needed)}" for name, kind, taken, needed in re.findall(row, text) if kind != "Place"]
print("\n".join(sorted(rows)))
PYTHON
"$top/tools/pages" --rows | sort > "$work/got"
same "docs/options.txt hasn't the parameters of defmt_words" "$work/due" "$work/got"

# Each option of a page completes there.
. "$top/docs/defmtl.completion"
for command in $(sed -n 's/^== //p' "$top/docs/commands.txt"); do
    [ "$command" != defmtl ] || continue
    due=$(sed -n "/^defmtl $command /p" "$top/docs/commands.txt" | grep -o -- '--[a-z-]*' | sort -u | tr '\n' ' ')
    COMP_WORDS=(defmtl "$command" --) COMP_CWORD=2
    _defmtl
    is "the completion of $command" "$(printf '%s\n' "${COMPREPLY[@]}" | grep -v '^--help$' | sort -u | tr '\n' ' ')" "$due"
done
counts
