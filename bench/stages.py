#!/usr/bin/env python3
"""Counts the instructions that each stage of `decode`, `print` and `record` executes for a frame or a statement, and draws docs/stages.svg.

    bench/stages.py [PROGRAM]                  prints a table; the program is the one that ./defmtl built, unless one is named
    bench/stages.py --docs [PROGRAM]           puts the counts into the columns "today" of the table in docs/PERFORMANCE.md, and draws the picture of that
    bench/stages.py --docs --before PROGRAM    puts them into the columns "before"
    bench/stages.py --plot                     draws the picture alone

The script is that of `gen`. Each command is counted by callgrind at 1,024 and at 4,096 statements, and the difference is divided by the statements between
them, so that starting costs fall away. What a function executes itself counts for the stage of its crate; one that the compiler put into its caller counts
there. It needs valgrind.
"""

import os
import re
import subprocess
import sys
import tempfile

TOP = os.path.dirname(os.path.dirname(os.path.abspath(__file__)))
PAGE = f"{TOP}/docs/PERFORMANCE.md"
sys.path.insert(0, f"{TOP}/docs")
sys.dont_write_bytecode = True

# The stages in their order, each with the crates whose functions count for it. Functions of the C library and of no crate are told by their names.
STAGES = {
    "reading the script": "defmt_shapes defmt_spelling defmt_lines defmt_script",
    "frames and codes": "defmt_framing rzcobs_core defmt_frames defmt_macros",
    "messages and plans": "defmt_encode defmt_plan",
    "texts of values": "defmt_grammar defmt_hints defmt_eager",
    "tables": "defmt_intern defmt_values defmt_hooks",
    "events and lines": "defmt_decode defmt_listen defmt_recording defmt_print defmt_run defmt_cli std_outside dl_io",
    "threads and rings": "defmt_logger defmt_writers defmt_talk defmt_steer writer_threads talk_threads shared_work rtt_ring rtt_modes",
    "memory taken": "malloc",
    "bytes copied and cleared": "copies",
    "the libraries": "",
}
OF_CRATE = {crate: stage for stage, crates in STAGES.items() for crate in crates.split()}
COMMANDS = ("decode", "print", "record")
WHEN = ("before", "today")


def stage_of(name):
    """The stage for which a function counts, by its name."""
    crate = re.match(r"[<&]*(?:mut )?(\w+)::", name)
    if crate and crate[1] in OF_CRATE:
        return OF_CRATE[crate[1]]
    if re.search(r"malloc|calloc|realloc|free|rattle_(de)?alloc|sysmalloc|unlink_chunk|arena_", name):
        return OF_CRATE["malloc"]
    if re.search(r"mem(cpy|move|set|cmp|chr)", name):
        return OF_CRATE["copies"]
    return "the libraries"


def counts_of(file):
    """What the functions of a file of callgrind execute themselves, by their stages."""
    names, counts, stage, passed = {}, dict.fromkeys(STAGES, 0), None, False
    with open(file, encoding="utf-8", errors="replace") as it:
        for line in it:
            if line.startswith("fn="):
                number, _, name = line[3:].rstrip("\n").partition(" ")
                if name:
                    names[number] = name
                stage = stage_of(names[number])
            elif line.startswith("cfn="):
                number, _, name = line[4:].rstrip("\n").partition(" ")
                if name:
                    names[number] = name
            elif line.startswith("calls="):
                passed = True
            elif line[:1] in "+-*" or line[:1].isdigit():
                if not passed:
                    counts[stage] += int(line.split()[-1])
                passed = False
    return counts


def generated(count):
    """The script of `defmtl gen COUNT`, by the function of bench/common.sh."""
    with open(f"{TOP}/bench/common.sh", encoding="utf-8") as it:
        made = it.read()
    function = made[made.index("generated() {") :]
    return subprocess.run(["sh", "-c", f'{function}\ngenerated "$1"', "sh", str(count)], check=True, capture_output=True).stdout


def measured(program):
    """The instructions a frame or a statement, by command and stage."""
    told = {}
    with tempfile.TemporaryDirectory() as work:

        def run(words, given):
            out, file = subprocess.PIPE, f"{work}/counts"
            command = ["valgrind", "--tool=callgrind", f"--callgrind-out-file={file}", program, *words]
            subprocess.run(command, input=given, stdout=out, stderr=subprocess.DEVNULL, check=True)
            return counts_of(file)

        both = {}
        for count in (1024, 4096):
            script = generated(count)
            with open(f"{work}/table.elf", "wb") as it:
                it.write(subprocess.run([program, "table"], input=script, stdout=subprocess.PIPE, check=True).stdout)
            frames = subprocess.run([program, "record"], input=script, stdout=subprocess.PIPE, check=True).stdout
            both[count] = {
                "decode": run(["decode", "--table", f"{work}/table.elf"], frames),
                "print": run(["print"], script),
                "record": run(["record"], script),
            }
    for command in COMMANDS:
        less, more = both[1024][command], both[4096][command]
        told[command] = {stage: round((more[stage] - less[stage]) / 3072) for stage in STAGES}
    return told


# ---- the table of the page


def read_table(text):
    """The counts of the page's table, by command, when and stage."""
    part = re.search(r"<!-- stages -->\n(.*?)<!-- /stages -->", text, re.S)
    told = {(command, when): dict.fromkeys(STAGES, 0) for command in COMMANDS for when in WHEN}
    for line in part[1].splitlines():
        cells = [it.strip().replace(",", "") for it in line.strip("|").split("|")]
        if cells[0] in STAGES:
            numbers = iter(cells[1:])
            for command in COMMANDS:
                for when in WHEN:
                    told[command, when][cells[0]] = int(next(numbers) or 0)
    return told


def table_of(told):
    lines = ["| Stage | " + " | ".join(f"`{command}` {when}" for command in COMMANDS for when in WHEN) + " |", "|---|" + "---|" * 6]
    keys = [(command, when) for command in COMMANDS for when in WHEN]
    for stage in STAGES:
        lines.append(f"| {stage} | " + " | ".join(f"{told[key][stage]:,}" if told[key][stage] else "" for key in keys) + " |")
    lines.append("| **all** | " + " | ".join(f"{sum(told[key].values()):,}" for key in keys) + " |")
    return "\n".join(lines) + "\n"


# ---- the picture


def draw(told):
    from pictures import Picture

    it = Picture("stages", 1000, "The instructions of decode, print and record for a frame or a statement of the generated script, stage by stage, before and today")
    it.text(30, 36, "Instructions by stage", "head")
    it.text(30, 58, "A frame of decode, a statement of print and of record, of the generated script; by callgrind, start left out.", "note")
    most = max(max(it.values()) for it in told.values())
    whole, y = 560 / most, 92
    for command in COMMANDS:
        sums = [sum(told[command, when].values()) for when in WHEN]
        it.text(30, y, f"{command}: {sums[0]:,} before, {sums[1]:,} today", "title")
        y += 14
        for stage in STAGES:
            values = [told[command, when][stage] for when in WHEN]
            if max(values) < 5:
                continue
            it.text(230, y + 14, stage, "note", "end")
            for at, (value, kind) in enumerate(zip(values, ("before", "proof"))):
                it.box(240, y + 1 + 11 * at, value * whole, 10, kind)
                it.text(246 + value * whole, y + 9.5 + 11 * at, f"{value:,}", "tiny")
            y += 27
        y += 34
    it.box(30, y - 18, 12, 12, "before")
    it.text(48, y - 8, "before", "note")
    it.box(110, y - 18, 12, 12, "proof")
    it.text(128, y - 8, "today", "note")
    it.save(y + 10)


def main():
    words = [it for it in sys.argv[1:] if not it.startswith("--")]
    program = os.path.abspath(words[0]) if words else f"{TOP}/crates/defmt_cli/out/defmt_cli"
    with open(PAGE, encoding="utf-8") as it:
        text = it.read()
    if "--plot" not in sys.argv:
        if not os.access(program, os.X_OK):
            raise SystemExit(f"there is no {program}: run ./defmtl once, or name a program")
        found = measured(program)
        told = read_table(text)
        when = "before" if "--before" in sys.argv else "today"
        for command in COMMANDS:
            told[command, when] = found[command]
        print(table_of(told), end="")
        if "--docs" not in sys.argv:
            return
        text = re.sub(r"<!-- stages -->\n.*?<!-- /stages -->", lambda _: f"<!-- stages -->\n{table_of(told)}<!-- /stages -->", text, flags=re.S)
        with open(PAGE, "w", encoding="utf-8") as it:
            it.write(text)
    draw(read_table(text))


main()
