#!/usr/bin/env python3
"""Counts the instructions of `decode`, `print` and `record` for a frame or a statement of each load, and holds them against those of a plain program.

    bench/loads.py [--plain PLAIN] [--only 'NAME;..'] [PROGRAM]

The program is the one that ./defmtl built, unless one is named. A load is a script of one string or some, with statements of one kind. Each command is
counted by callgrind at 512 and at 2,048 statements, and the difference is divided by the statements between them, so that starting costs fall away.
A plain program is one without proofs that does the same; its counts stand below, and are taken anew from one that is named. Of a load of many strings
the whole program is counted beside, at 1,000 strings and as many statements; nothing is due of that. It needs
valgrind, which runs one thread at a time: `record` has the turns of threads that wait in it, too many on a machine with much other work. The status is 1 where a ratio
is above what is due.
"""

import os
import re
import subprocess
import sys
import tempfile

TOP = os.path.dirname(os.path.dirname(os.path.abspath(__file__)))
COMMANDS = ("decode", "print", "record")
DUE = {"decode": 1.0, "print": 1.0, "record": 1.1}
FEW, MANY = 512, 2048


def number(i):
    """A number of 32 bits for the statement i."""
    return (i * 1103515245 + 12345) % 4294967296


def literal(i):
    return ""


def integers(i):
    x = number(i)
    return f"{x % 256} {x % 65536} {x} {x * 65537} {x % 2001 - 1000} {x % 2000001 - 1000000}"


def text(i):
    return '"' + (f"port {number(i) % 1000} of the station is open, " * 6)[:200] + '"'


def some_bytes(i):
    return "#" + "".join(f"{number(i + k) >> 8 & 255:02x}" for k in range(200))


def nested(i):
    return f"outer(middle(inner(leaf({number(i) % 256}))))"


def listed(i):
    return "point[" + " ".join(f"({number(i + k) % 2001 - 1000} {number(i * k) % 256})" for k in range(16)) + "]"


def half(i):
    return f"{number(i) % 65536}"


def radix(i):
    x = number(i)
    return f"{x} {x % 65536} {x * 65537} {x % 256}"


NESTED = [
    "s leaf defmt_derived Leaf {{ value: {=u8} }}",
    "s inner defmt_derived Inner {{ leaf: {=?} }}",
    "s middle defmt_derived Middle {{ inner: {=?} }}",
    "s outer defmt_derived Outer {{ middle: {=?} }}",
]

# The strings of each load, the name of the string that is logged, and the arguments of a statement.
LOADS = {
    "literal": (["s a defmt_info the pump is running"], literal),
    "six integers": (["s a defmt_info {=u8} {=u16} {=u32} {=u64} {=i16} {=i32}"], integers),
    "text of 200": (["s a defmt_info said {=str}"], text),
    "bytes of 200": (["s a defmt_info got {=[u8]}"], some_bytes),
    "nested four deep": (NESTED + ["s a defmt_info state {=?}"], nested),
    "list of 16": (["s point defmt_derived ({=i16}, {=u8})", "s a defmt_info track {=[?]}"], listed),
    "1,000 strings": ([f"s a{k} defmt_info message number {k} has {{=u16}}" for k in range(1000)], half),
    "bit fields": (["s a defmt_info {0=0..4} {0=4..8:#b} {0=8..16:x}"], half),
    "radix": (["s a defmt_info {=u32:#034b} {=u16:#06x} {=u64:016x} {=u8:08b}"], radix),
}


def script(load, count):
    strings, arguments = LOADS[load]
    many = load == "1,000 strings"
    lines = ["ring 4096"] + strings
    for i in range(count):
        name = f"a{i % len(strings)}" if many else "a"
        lines.append(f"w {i % 4} {name} {arguments(i)}".rstrip())
    return ("\n".join(lines) + "\n").encode()


def counted(program, words, given):
    """How many instructions the program executes with these words and this input."""
    with tempfile.TemporaryFile() as source:
        source.write(given)
        source.seek(0)
        command = ["valgrind", "--tool=callgrind", "--callgrind-out-file=/dev/null", program, *words]
        ran = subprocess.run(command, stdin=source, stdout=subprocess.DEVNULL, stderr=subprocess.PIPE, check=False)
    if ran.returncode != 0:
        raise SystemExit(f"{words} ended with status {ran.returncode}: {ran.stderr[-300:]!r}")
    return int(re.search(rb"Collected : (\d+)", ran.stderr)[1])


def inputs(maker, load, count, work):
    """The words and the input of each command."""
    given = script(load, count)
    table = f"{work}/table.{count}"
    with open(table, "wb") as it:
        it.write(subprocess.run([maker, "table"], input=given, stdout=subprocess.PIPE, check=True).stdout)
    frames = subprocess.run([maker, "record"], input=given, stdout=subprocess.PIPE, check=True).stdout
    return {"decode": (["decode", "--table", table], frames), "print": (["print"], given), "record": (["record"], given)}


def measured(program, maker, load):
    """The instructions a frame or a statement, by command."""
    with tempfile.TemporaryDirectory() as work:
        few, many = (inputs(maker, load, count, work) for count in (FEW, MANY))
        return {command: (counted(program, *many[command]) - counted(program, *few[command])) / (MANY - FEW) for command in COMMANDS}


def whole(program, maker, load):
    """The instructions of whole calls at 1,000 statements, by command."""
    with tempfile.TemporaryDirectory() as work:
        given = inputs(maker, load, 1000, work)
        return {command: counted(program, *given[command]) for command in COMMANDS}


# What the plain program executes, by load and command; the last row is of whole calls.
PLAIN = {
    "literal": {"decode": 434, "print": 1146, "record": 1315},
    "six integers": {"decode": 2451, "print": 5303, "record": 4851},
    "text of 200": {"decode": 2004, "print": 18168, "record": 19555},
    "bytes of 200": {"decode": 23941, "print": 34480, "record": 13771},
    "nested four deep": {"decode": 2153, "print": 6739, "record": 6675},
    "list of 16": {"decode": 14275, "print": 36796, "record": 32521},
    "1,000 strings": {"decode": 711, "print": 1902, "record": 1993},
    "bit fields": {"decode": 1283, "print": 2426, "record": 1961},
    "radix": {"decode": 2966, "print": 5241, "record": 3918},
    "1,000 strings, whole": {"decode": 9441968, "print": 9383995, "record": 9561173},
}


def main():
    words = sys.argv[1:]
    plain, only = None, None
    if "--plain" in words:
        at = words.index("--plain")
        plain = os.path.abspath(words[at + 1])
        del words[at : at + 2]
    if "--only" in words:
        at = words.index("--only")
        only = words[at + 1].split(";")
        del words[at : at + 2]
    program = os.path.abspath(words[0]) if words else f"{TOP}/crates/defmt_cli/out/defmt_cli"
    if not os.access(program, os.X_OK):
        raise SystemExit(f"there is no {program}: run ./defmtl once, or name a program")
    worst = 0
    print(f"{'load':<22}" + "".join(f"{command:>10}{'plain':>10}{'ratio':>7}" for command in COMMANDS))
    rows = [(load, measured, load) for load in LOADS] + [("1,000 strings, whole", whole, "1,000 strings")]
    for name, count, load in rows:
        if only and name not in only:
            continue
        ours = count(program, program, load)
        theirs = count(plain, program, load) if plain else PLAIN[name]
        line = f"{name:<22}"
        for command in COMMANDS:
            ratio = ours[command] / theirs[command]
            late = count is measured and ratio > DUE[command]
            worst = worst or late
            line += f"{ours[command]:>10,.0f}{theirs[command]:>10,.0f}{ratio:>6.2f}{'!' if late else ' '}"
        print(line, flush=True)
    sys.exit(1 if worst else 0)


if __name__ == "__main__":
    main()
