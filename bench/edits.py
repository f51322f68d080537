#!/usr/bin/env python3
"""Lists the edits of must-fail/, a table for each crate: which function each turns, and what is wrong then.

    bench/edits.py            prints the tables
    bench/edits.py --docs     writes them to docs/generated/edits.md; the words of an edit are its first comment, or else those that stand there
    bench/edits.py --check    tells which edits have no row, which rows no edit, which have no words, and which change no text; the status is then 1

An edit may begin with a comment, a line '# WORDS', which counts before the words of the page.
"""

import os
import re
import sys

from gate import TOP, crates, edits_of, page, put_into_docs

HEAD = re.compile(r"^\s*(?:pub(?:\([^)]*\))? )?(?:const )?(?:unsafe )?fn (\w+)")
OWNER = re.compile(r"^(?:pub(?:\([^)]*\))? )?(?:unsafe )?(?:impl\b(?:<(?:[^<>]|<[^<>]*>)*>)?|trait) (?:(?:\w+::)*\w+(?:<.*?>)? for )?&?(?:\w+::)*(\w+)")
ROW = re.compile(r"^\| `(\w+)` \| .*? \| (.*) \|$")


def function_at(text, place):
    """The name of the function round this place of a source, with its type where it has one."""
    named, owner = "", ""
    for line in text[: text.index("\n", place)].split("\n"):
        if found := OWNER.match(line):
            owner = found[1] + "::"
        elif line.startswith("}"):
            owner = ""
        if found := HEAD.match(line):
            named = (owner if line[0] == " " else "") + found[1]
    return named


def read(crate, name):
    """The file and function that an edit turns first, and its comment."""
    folder, file, place, words = f"{TOP}/crates/{crate}", "", "", ""
    with open(f"{folder}/must-fail/{name}.edit", encoding="utf-8") as it:
        for line in it.read().split("\n"):
            if line.startswith("# ") and not words:
                words = line[2:].strip().rstrip(".")
                words = words[0].lower() + words[1:] if words[1:2].islower() or words[:2] == "A " else words
            elif line.startswith("file: ") and not file:
                file = line[6:].strip()
            elif line.startswith("old: ") and not place and os.path.isfile(f"{folder}/{file}"):
                with open(f"{folder}/{file}", encoding="utf-8") as source:
                    text = source.read()
                at = text.find(line[5:])
                place = function_at(text, at) if at >= 0 else ""
    return file, place, words


def turns(crate, name):
    """Whether each old text of an edit stands once in its file, behind the texts in front of it, as rt asks."""
    folder, file, old, texts = f"{TOP}/crates/{crate}", "", "", {}
    with open(f"{folder}/must-fail/{name}.edit", encoding="utf-8") as it:
        for line in it.read().split("\n"):
            if line.startswith("file: "):
                file = f"{folder}/{line[6:].strip()}"
            elif line.startswith("old: "):
                old = line[5:]
            elif line.startswith("new:"):
                if file not in texts:
                    if not os.path.isfile(file):
                        return False
                    with open(file, encoding="utf-8") as source:
                        texts[file] = source.read()
                if texts[file].count(old) != 1:
                    return False
                texts[file] = texts[file].replace(old, line[4:].removeprefix(" "))
    return bool(texts)


def told():
    """The words of each edit's row in docs/generated/edits.md, by crate and name."""
    words, crate = {}, ""
    if os.path.isfile(page("edits")):
        with open(page("edits"), encoding="utf-8") as it:
            for line in it.read().split("\n"):
                if line.startswith("## "):
                    crate = line[3:]
                elif row := ROW.match(line):
                    words[crate, row[1]] = row[2]
    return words


def tables(words):
    lines, count = [], 0
    for crate in crates():
        names = edits_of(crate)
        if names:
            lines += [f"## {crate}", "", "| Edit | Turns | The wrong body |", "|---|---|---|"]
        for name in names:
            file, place, comment = read(crate, name)
            turns = f"`{place}`, {file}" if place else file
            lines.append(f"| `{name}` | {turns} | {comment or words.get((crate, name), '')} |")
        count += len(names)
        lines += [""] if names else []
    return "\n".join([f"{count} edits in all.", "", *lines]).rstrip() + "\n"


def check(words):
    edits = {(crate, name) for crate in crates() for name in edits_of(crate)}
    wrong = [f"no row: {crate}/{name}" for crate, name in sorted(edits - set(words))]
    wrong += [f"no edit: {crate}/{name}" for crate, name in sorted(set(words) - edits)]
    wrong += [f"no words: {crate}/{name}" for (crate, name), at in sorted(words.items()) if not at]
    wrong += [f"no text: {crate}/{name}" for crate, name in sorted(edits) if not turns(crate, name)]
    print("\n".join([*wrong, f"{len(edits)} edits, {len(wrong)} wrong"]))
    return 1 if wrong else 0


if __name__ == "__main__":
    if sys.argv[1:] == ["--docs"]:
        put_into_docs(tables(told()), "edits")
    elif sys.argv[1:] == ["--check"]:
        sys.exit(check(told()))
    else:
        print(tables(told()), end="")
