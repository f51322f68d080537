#!/usr/bin/env python3
"""Checks the pages against the sources: each contract that one names is there, each wrong body has its edit, each link leads to something.

    tests/clauses.py [CHECKOUT]

The pages are README.md, docs/*.md, docs/generated/*.md, device/README.md, device/ANSWERS.md, crates/README.md and crates/NAME/README.md, of which each crate has one.
Checked are

- of crates/NAME/README.md and docs/PROOFS.md, the columns 'Where', 'Clause' and 'Clause that says so', the sections 'Wrong bodies', and the columns
  'What refuses it' and 'Edit or test': each word in backticks has to be a function of the crates, a clause, a type, a definition, a file or a folder,
  so a word of the crates' sources; where wrong bodies are told of, an edit of must-fail/ too. A function behind a type's name has to be one of that
  type, a clause behind a function's name one of a function that the cell names, and a clause in the row of a call one of that call;
- of crates/README.md, that each function to read first is in its file;
- of all pages, that each link to a file leads to one, and to a heading where it names one, and that the pages that have a limit keep within it;
- that docs/generated/edits.md has the words of each edit (bench/edits.py --check).

The last line is 'N passed, M failed'.
"""

import glob
import os
import re
import subprocess
import sys

TOP = os.path.dirname(os.path.dirname(os.path.abspath(__file__)))
top = os.path.abspath(sys.argv[1]) if len(sys.argv) > 1 else TOP
OWNER = re.compile(r"(?:pub(?:\([^)]*\))? )?(?:unsafe )?(impl|trait)\b(?:<(?:[^<>]|<[^<>]*>)*>)? (?:(?:\w+::)*(\w+)(?:<.*?>)? for )?&?(?:\w+::)*(\w+)")
FUNCTION = re.compile(r"\s*(?:pub(?:\([^)]*\))? )?(?:const )?(?:unsafe )?(?:ghost )?fn (\w+)")
CLAUSE = re.compile(r"\s*(?:ensures|requires) (\w+) \{")
WORDS = re.compile(r"\w+")
NAMED = re.compile(r"`([^`]+)`")
# The columns that name contracts, and those that name edits too.
CONTRACTS, EDITS = ("Where", "Clause", "Clause that says so", "Where in `Answers`"), ("What refuses it", "Edit or test")
# The most lines of a page, and the most characters of a line.
LIMITS = {"README.md": (120, 160), "docs/PROOFS.md": (400, None), "defmtl": (80, None)}

passed = failed = 0


def check(place, wrong):
    """Counts one thing that was checked, and tells what is wrong with it."""
    global passed, failed
    if wrong:
        failed += 1
        print(f"FAILED: {place}: {'; '.join(wrong)}")
    else:
        passed += 1


def read(path):
    with open(path, encoding="utf-8") as it:
        return it.read()


def crates():
    return [line.split(":")[0].split()[0] for line in read(f"{top}/crates.txt").split("\n") if line.partition("#")[0].strip()]


def sources():
    """All words of the sources and their names, and the clauses of each function by its name, with and without its type or trait."""
    words, clauses = set(), {}
    for path in glob.glob(f"{top}/crates/*/*/**/*.*", recursive=True):
        if not path.endswith((".rt", ".antt")) or "/out/" in path:
            continue
        text = read(path)
        words.update(WORDS.findall(text))
        if not path.endswith(".rt"):
            continue
        owners, named = (), []
        for line in text.split("\n"):
            if found := OWNER.match(line):
                owners = tuple(it for it in found.groups()[1:] if it)
            elif line.startswith("}"):
                owners = ()
            if found := FUNCTION.match(line):
                named = [found[1], *(f"{it}::{found[1]}" for it in owners)]
                for it in named:
                    clauses.setdefault(it, set())
            elif found := CLAUSE.match(line):
                for it in named:
                    clauses[it].add(found[1])
    words.update(os.path.basename(it) for it in glob.glob(f"{top}/crates/*"))
    words.update(WORDS.findall(read(f"{top}/crates.txt")))
    return words, clauses


def missing(text, words):
    """The words in backticks that are no words of the sources, and name no file or folder."""
    for word in NAMED.findall(text):
        if re.fullmatch(r"[\w/.*-]+/[\w./*-]*|[\w-]+\.\w+", word):
            if glob.glob(f"{top}/{word}") or glob.glob(f"{top}/crates/*/{word}"):
                continue
        elif all(it in words for it in WORDS.findall(word)):
            continue
        yield f"there is no {word}"


def tables(text):
    """The rows of a page's tables: the line, and the cells by their columns' heads."""
    heads, lines = [], text.split("\n")
    for number, line in enumerate(lines, 1):
        if not line.startswith("|"):
            heads = []
            continue
        cells = [it.strip() for it in line.strip().strip("|").split(" |")]
        cells = [it.removeprefix("| ").strip() for it in cells]
        if not heads:
            heads = cells
        elif not line.startswith("|---"):
            yield number, dict(zip(heads, cells))


class Contracts:
    """What the pages name, and the sources have."""

    def __init__(self):
        self.words, self.clauses = sources()
        self.names = set().union(*self.clauses.values())
        self.edits = {os.path.basename(it)[:-5] for it in glob.glob(f"{top}/crates/*/must-fail/*.edit")}

    def cell(self, text):
        """What is wrong with a cell: words that aren't there, and clauses that the function in front of them hasn't."""
        wrong = list(missing(text, self.words))
        wrong += [f"there is no {it}" for it in NAMED.findall(text) if re.fullmatch(r"\w+::[a-z]\w*", it) and it not in self.clauses]
        # (a function, and then its clauses up to the next function or the end of a part)
        for name, listed in re.findall(r"`((?:\w+::)?[a-z]\w*)`,? ((?:(?:, | and |, and )?`[a-z_0-9]+`)+)", text):
            if self.clauses.get(name) and ("::" in name or name not in self.names) and not re.search(r"`, `.*` of ", listed):
                each = NAMED.findall(listed)
                # (a word that is a function's alone begins another function)
                wrong += [f"{name} has no {it}" for it in each if it not in self.clauses[name] and (it in self.names or it not in self.clauses)]
        return wrong

    def of_call(self, call, text):
        """Which clauses of a cell the calls of its row don't have."""
        calls = [it for it in NAMED.findall(call) if it in self.clauses]
        if not calls:
            return []
        theirs = set().union(*(self.clauses[it] for it in calls))
        outside = re.sub(r"\([^()]*\)", "", text)
        return [f"{calls[0]} has no {it}" for it in NAMED.findall(outside) if it in self.names and it not in theirs]

    def check_tables(self, path):
        for number, row in tables(read(f"{top}/{path}")):
            for head, cell in row.items():
                if head in CONTRACTS:
                    wrong = self.cell(cell)
                    if "Call" in row:
                        wrong += [*missing(row["Call"], self.words), *self.of_call(row["Call"], cell)]
                    check(f"{path}:{number}", wrong)
                elif head in EDITS:
                    check(f"{path}:{number}", list(missing(cell, self.words | self.edits)))

    def check_bodies(self, path):
        text = read(f"{top}/{path}")
        if found := re.search(r"\n## Wrong bodies\n\n(.*?)(?=\n## |\Z)", text, re.S):
            number = text[: found.start(1)].count("\n") + 1
            check(f"{path}:{number}", list(missing(found[1], self.words | self.edits)))


def check_read_first():
    path = "crates/README.md"
    for number, line in enumerate(read(f"{top}/{path}").split("\n"), 1):
        for names, file in re.findall(r"((?:`[\w:]+`(?:, )?)+) in \[[^]]*\]\(([^)]*)\)", line):
            text = read(f"{top}/crates/{file}") if os.path.isfile(f"{top}/crates/{file}") else ""
            names = [it.rpartition("::")[2] for it in NAMED.findall(names)]
            check(f"{path}:{number}", [f"{file} has no {it}" for it in names if not re.search(rf"\b(?:fn|trait|struct|enum) {it}\b", text)])


def anchors(path):
    """The anchors of a page's headings."""
    heads = re.findall(r"(?m)^#+ (.*)$", re.sub(r"(?ms)^```.*?^```", "", read(path)))
    return {re.sub(r"[^\w\- ]", "", it.lower()).replace(" ", "-") for it in heads}


def check_links(path):
    for number, line in enumerate(read(f"{top}/{path}").split("\n"), 1):
        for link in re.findall(r"\]\(([^)\s]+)\)", line):
            file, _, anchor = link.partition("#")
            if re.match(r"[a-z]+:", link):
                continue
            to = os.path.normpath(os.path.join(f"{top}/{path}", "..", file)) if file else f"{top}/{path}"
            wrong = [] if os.path.exists(to) else [f"there is no {link}"]
            if not wrong and anchor and os.path.isfile(to) and anchor not in anchors(to):
                wrong = [f"{link} names no heading"]
            check(f"{path}:{number}", wrong)


def check_limits():
    for path, (most_lines, most_characters) in LIMITS.items():
        if not os.path.isfile(f"{top}/{path}"):
            continue
        lines = read(f"{top}/{path}").rstrip("\n").split("\n")
        wrong = [f"{len(lines)} lines, where {most_lines} are the most"] if len(lines) > most_lines else []
        if most_characters:
            wrong += [f"line {at} has {len(it)} characters" for at, it in enumerate(lines, 1) if len(it) > most_characters]
        check(path, wrong)


def main():
    contracts = Contracts()
    pages = [f"crates/{it}/README.md" for it in crates()]
    check("crates", [f"there is no {it}" for it in pages if not os.path.isfile(f"{top}/{it}")])
    pages = [it for it in pages if os.path.isfile(f"{top}/{it}")]
    for path in [*pages, "docs/PROOFS.md"]:
        contracts.check_tables(path)
        contracts.check_bodies(path)
    check_read_first()
    for path in [*pages, "README.md", "crates/README.md", "device/README.md", "device/ANSWERS.md", *sorted(os.path.relpath(it, top) for it in glob.glob(f"{top}/docs/**/*.md", recursive=True))]:
        check_links(path)
    check_limits()
    if top == TOP:
        edits = subprocess.run([sys.executable, f"{TOP}/bench/edits.py", "--check"], capture_output=True, text=True)
        check("docs/generated/edits.md", edits.stdout.strip().split("\n") if edits.returncode else [])
    print(f"{passed} passed, {failed} failed")
    return 1 if failed or not passed else 0


if __name__ == "__main__":
    sys.exit(main())
