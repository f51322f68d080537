#!/usr/bin/env python3
"""Counts the rows of tests of each crate that has tests, as a table.

    bench/rows.py [CHECKOUT]    of this checkout, or of another
    bench/rows.py --docs        of this one, into docs/generated/rows.md

A row is one thing that a test asks: a line or a block of the text that a test gives to `each_line` or `each_block`, with their number
behind it; else an assertion or a call of `expect`, once for each entry of the tables of constants that it stands in a loop over, and once
for each call of the function that it stands in. A loop over anything else counts once.
"""

import glob
import os
import re
import sys

from gate import TOP, put_into_docs

TEXTS = re.compile(r"""//[^\n]*|b?r(#*)".*?"\1|b?"(?:\\.|[^"\\])*"|b?'(?:\\(?:u\{\w+\}|x..|.)|[^\\'])'""", re.S)
WORD = re.compile(
    r"for\s+[^{};]*?\sin\s+&?(?P<over>\[|\w+)"
    r"|(?:assert\w*!|\bexpect)\((?P<asserted>)"
    r"|each_(?:line|block)\((?P<asked>)"
    r"|(?P<called>\w+)(?:::<[^;{}()]*>)?\("
)


def closing(text, at):
    """The place of the bracket that closes the one at this place, of a text without strings."""
    depth = 0
    for place in range(at, len(text)):
        depth += (text[place] in "([{") - (text[place] in ")]}")
        if not depth:
            return place
    raise SystemExit("a bracket isn't closed")


def length(text, at):
    """How many entries the array has whose bracket opens at this place."""
    inner, place, parts = text[at + 1 : closing(text, at)], 0, [""]
    while place < len(inner):
        if inner[place] in "([{":
            place = closing(inner, place)
            parts[-1] += "x"
        elif inner[place] in ",":
            parts.append("")
        else:
            parts[-1] += inner[place]
        place += 1
    return sum(bool(it.strip()) for it in parts)


def tables_in(text, word):
    """How many entries each array has that is named in a piece of code."""
    named = re.finditer(rf"\b{word}\s+(\w+)(?::[^=;]*(?:;[^=;]*)?)?\s=\s&?\[", text)
    return {it[1]: length(text, it.end() - 1) for it in named}


class Tests:
    """The functions and tables of a crate's files that have tests, by their names."""

    def __init__(self, files):
        self.bodies, self.tables, self.names, self.asked = {}, {}, [], {}
        for file in files:
            with open(file, encoding="utf-8") as it:
                whole = it.read()
            if "#[test]" not in whole:
                continue
            # (no bracket or word of a string counts)
            text = TEXTS.sub("0", whole)
            self.tables.update(tables_in(text, "const"))
            for found in re.finditer(r"(#\[test\]\s*)?(?:pub(?:\([^)]*\))? )?fn (\w+)", text):
                # the body follows the words of the function's head, whose clauses stand in braces
                place = re.compile(r"[({]").search(text, found.end()).start()
                while text[place] != "{" or re.search(r"\b(requires|ensures)\b[^{};]*$", text[found.end() : place]):
                    after = re.compile(r"[({;]").search(text, closing(text, place) + 1)
                    if not after or after[0] == ";":
                        break
                    place = after.start()
                if text[place] == "{":
                    self.bodies[found[2]] = text[place + 1 : closing(text, place)]
                    self.names += [found[2]] if found[1] else []

    def rows(self, name):
        if name not in self.asked:
            self.asked[name] = 0
            body = self.bodies[name]
            self.asked[name] = self.rows_in(body, {**self.tables, **tables_in(body, "let")})
        return self.asked[name]

    def rows_in(self, text, tables):
        """The rows of a piece of code, which sees these tables."""
        count, place = 0, 0
        while found := WORD.search(text, place):
            place = found.end()
            if found["over"] is not None:
                if found["over"] == "[":
                    times, place = length(text, place - 1), closing(text, place - 1)
                else:
                    times = tables.get(found["over"], 1)
                place = text.index("{", place)
                end = closing(text, place)
                count += times * self.rows_in(text[place + 1 : end], tables)
                place = end
            elif found["asked"] is not None:
                place = closing(text, place - 1)
                # (the last argument but one)
                count += int(re.search(r",\s*(\d+),\s*[&\w:]+(\([\w:]+\))?,?\s*$", text[found.end() : place])[1])
            elif found["asserted"] is not None:
                count += 1
                place = closing(text, place - 1)
            elif found["called"] in self.bodies:
                count += self.rows(found["called"])
        return count


def table(top):
    lines, functions, rows = ["| Crate | Test functions | Rows |", "|---|---|---|"], 0, 0
    with open(f"{top}/crates.txt", encoding="utf-8") as it:
        names = [line.split(":")[0].split()[0] for line in it if line.partition("#")[0].strip()]
    for crate in names:
        tests = Tests(sorted(glob.glob(f"{top}/crates/{crate}/src/**/*.rt", recursive=True)))
        if tests.names:
            count = sum(tests.rows(it) for it in tests.names)
            functions, rows = functions + len(tests.names), rows + count
            lines.append(f"| {crate} | {len(tests.names)} | {count} |")
    return "\n".join([*lines, f"| **All** | {functions} | {rows} |"]) + "\n"


if __name__ == "__main__":
    if sys.argv[1:] == ["--docs"]:
        put_into_docs(table(TOP), "rows")
    else:
        print(table(*(sys.argv[1:] or [TOP])), end="")
