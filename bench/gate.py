#!/usr/bin/env python3
"""Tells what the merge gate costs: processor seconds by crate and kind, the dearest edit of each crate, and the longest chain of proofs.

    bench/gate.py [--into FILE] [--edits] [--reference] [--docs] [-- COMMAND..]    runs the command at the repository's top, by default `rt ci --anew`;
                                                                     of a kit whose `rt ci` has no --anew, give `-- rt ci`, which is always from nothing
    bench/gate.py [--into FILE] [--edits] --watch PID                watches an `rt ci` of this checkout that runs already

The table goes to FILE, or else behind what the command writes, and with --edits the seconds of each edit behind it. --docs writes it to
docs/generated/gate.md where the command passed, and draws docs/gate.svg anew. With --docs or --reference it runs `rt selftest` before and behind
the command and tells its processor seconds: the same work wherever the kit is, so two runs on machines with other work can be compared.

It looks at the processes of the run twice a second, and takes each for what its words say. What a process used behind the last look at it is
in its parent's sum of ended children, and is shared evenly among those that ended since the look before. A watched run is told from the
first look on: what had ended by then isn't counted.
"""

import argparse
import datetime
import os
import re
import signal
import subprocess
import sys
import textwrap
import threading
import time
from collections import defaultdict

TOP = os.path.dirname(os.path.dirname(os.path.abspath(__file__)))
PROOF, TESTS, BEFORE, EDITS, BUILD, REST = "Proof", "Tests", "Check before edits", "Edits", "Build and run", "Rest"
KINDS = (PROOF, TESTS, BEFORE, EDITS)
# The most that we allow: minutes for the whole gate, and seconds for the others.
MOST_MINUTES, MOST_SECONDS, MOST_OF_EDIT = 210, {PROOF: 260, TESTS: 400}, 60
GATE, OLDER_GATE = ["rt", "ci", "--anew"], ["rt", "ci"]
TICKS = os.sysconf("SC_CLK_TCK")
EACH = 0.5
COMPILERS = re.compile(r"clang|ld\.lld|llvm-|rattle-link")


def task_of(words, folder, above):
    """What a process does, as the crate, the kind and an edit's number, by its words and its folder, or else as the process above it."""
    program = os.path.basename(words[0]) if words else ""
    if program == "rattle" and words[1:2] in (["check"], ["build"]) and "--crate-name" in words:
        behind = lambda word: words[words.index(word) + 1] if word in words else ""
        crate, base = behind("--crate-name"), os.path.basename(behind("--incremental"))
        if os.path.basename(folder).startswith("rt-edit-"):
            if base.startswith("rt-edits-"):
                return of_shared_work(crate, base, folder)
            return (crate, BEFORE, None) if base == "seed" else (crate, EDITS, int(base) if base.isdigit() else None)
        return crate, TESTS if "--test" in words else BUILD if "--crate-checked" in words else PROOF, None
    if COMPILERS.match(program) or any("/rt-run-" in it for it in words):
        return above[0], BUILD, None
    return above


# The folders of a crate's edits that are tried over one another's work, by the folder of that work, in their order.
TRIED = defaultdict(list)


def of_shared_work(crate, work, folder):
    """An older kit tries a crate's edits over one another's work: the first proves the rest of the crate too, and behind the last it is proved without edits."""
    tried = TRIED[work]
    if folder not in tried:
        tried.append(folder)
    number = tried.index(folder)
    return (crate, BEFORE, number) if number in (0, len(edits_of(crate))) else (crate, EDITS, number)


class Process:
    def __init__(self, parent):
        self.parent, self.task, self.own, self.ended, self.share = parent, (None, REST, None), 0, 0, 0

    def total(self):
        return self.own + self.ended


class Watch:
    """The processes of a run: those below its first one, by number and start."""

    def __init__(self, first, goes_on=False):
        self.first, self.known, self.alive, self.is_late = first, {}, set(), goes_on

    def look(self):
        """Takes what each process used so far, and answers whether the run goes on."""
        found, below = {}, defaultdict(list)
        for pid in filter(str.isdigit, os.listdir("/proc")):
            try:
                with open(f"/proc/{pid}/stat", errors="replace") as it:
                    fields = it.read().rpartition(")")[2].split()
            except OSError:
                continue
            found[int(pid)] = (int(pid), fields[19]), fields
            below[int(fields[1])].append(int(pid))
        # (a process whose parent ended stays one of the run's)
        old = [pid for pid, (key, _) in found.items() if key in self.alive and pid != self.first]
        todo, alive, grown = [*old, self.first], set(), {}
        while todo:
            pid = todo.pop()
            if pid not in found or found[pid][0] in alive:
                continue
            key, fields = found[pid]
            alive.add(key)
            todo += below[pid]
            parent = found[int(fields[1])][0] if int(fields[1]) in found else None
            it = self.known.setdefault(key, Process(parent))
            user, system, of_user, of_system = (int(at) for at in fields[11:15])
            ended = of_user + of_system
            grown[key], it.own, it.ended = ended - it.ended, user + system, ended
            if pid == self.first and self.is_late:
                grown[key], self.is_late = 0, False
        for key in sorted(alive, key=lambda it: int(it[1])):
            self.name(key)
        self.settle(self.alive - alive, alive, grown)
        self.alive = alive
        return any(pid == self.first and found[pid][1][0] != "Z" for pid, _ in alive)

    def name(self, key):
        """Takes what a process does from its words, which change when it starts another program."""
        it, above = self.known[key], (None, REST, None)
        if it.parent in self.known:
            above = self.known[it.parent].task
        try:
            with open(f"/proc/{key[0]}/cmdline", errors="replace") as file:
                words = file.read().split("\0")
            folder = os.readlink(f"/proc/{key[0]}/cwd")
        except OSError:
            return
        if words[0]:
            it.task = task_of(words, folder, above)

    def settle(self, gone, alive, grown):
        """Gives the processes that ended what their parents count beyond what was seen of them."""
        groups = defaultdict(list)
        for key in gone:
            above = self.known[key].parent
            while above in self.known and above not in alive:
                above = self.known[above].parent
            groups[above].append(self.known[key])
        for key, count in grown.items():
            rest = count - sum(it.total() for it in groups[key])
            takers = groups[key] or [self.known[key]]
            for it in takers if rest > 0 else ():
                it.share += rest / len(takers)

    def seconds(self):
        """The seconds of each task."""
        sums = defaultdict(float)
        for it in self.known.values():
            sums[it.task] += (it.own + it.share) / TICKS
        return sums


def crates():
    """The crates of crates.txt in their order, with those of them that each stands on."""
    below = {}
    with open(f"{TOP}/crates.txt", encoding="utf-8") as file:
        for line in file:
            head, colon, deps = line.partition("#")[0].partition(":")
            if colon:
                below[head.split()[0]] = deps.split()
    return {name: [it for it in deps if it in below] for name, deps in below.items()}


def edits_of(crate):
    """The names of a crate's edits, in the order in which rt numbers them."""
    folder = f"{TOP}/crates/{crate}/must-fail"
    return sorted(it[:-5] for it in os.listdir(folder) if it.endswith(".edit")) if os.path.isdir(folder) else []


def longest_chain(below, seconds):
    """The chain of crates, each standing on the one before, whose seconds are most together."""
    chains = {}

    def chain(name):
        if name not in chains:
            under = max((chain(it) for it in below[name]), default=(0, []))
            chains[name] = under[0] + seconds[name], [*under[1], name] if seconds[name] else under[1]
        return chains[name]

    return max((chain(it) for it in below), default=(0, []))


def by_edit(sums):
    """The seconds of each edit that was tried, by crate and name."""
    by_number = defaultdict(lambda: defaultdict(float))
    for (crate, kind, number), seconds in sums.items():
        if kind == EDITS:
            by_number[crate][number] += seconds
        # (what such an edit takes beyond the check of the rest isn't seen)
        elif kind == BEFORE and number == 0:
            by_number[crate][0] += 0
    named = {}
    for crate, edits in by_number.items():
        names = edits_of(crate)
        # an edit that is tried from nothing has no number, as the only one of a crate
        if len(names) == 1 and None in edits:
            edits[0] = edits.pop(None)
        named[crate] = {names[it]: at for it, at in edits.items() if it is not None and it < len(names)}
    return named


def list_of_edits(sums):
    """A line for each edit, the dearest first."""
    each = [(at, f"{crate}/{name}") for crate, edits in by_edit(sums).items() for name, at in edits.items()]
    return [f"{at:6.1f} {name}" for at, name in sorted(each, reverse=True)]


def table(sums):
    """The table of a run, and what is above the bounds."""
    rows, above, whole, below = [], [], defaultdict(float), crates()
    by_crate, edits = defaultdict(lambda: defaultdict(float)), by_edit(sums)
    for (crate, kind, _), seconds in sums.items():
        by_crate[crate][kind] += seconds
        whole[kind] += seconds
    tried = 0
    for crate in below:
        spent, names, named = by_crate[crate], edits_of(crate), edits.get(crate, {})
        if not spent:
            continue
        dearest = max(named, key=named.get, default="")
        above += [f"{crate}: {kind.lower()} {spent[kind]:.0f} s" for kind, most in MOST_SECONDS.items() if spent[kind] > most]
        above += [f"{crate}/{it}: {at:.0f} s" for it, at in named.items() if at > MOST_OF_EDIT]
        count = len(named)
        tried += count
        cells = [f"{spent[kind]:.0f}" if spent[kind] else "" for kind in KINDS]
        number = f"{count}" if count == len(names) else f"{count} of {len(names)}"
        rows.append([crate, *cells, number, f"`{dearest}` {named[dearest]:.0f}" if dearest else ""])
    minutes = [f"{whole[kind] / 60:.1f}" for kind in KINDS]
    rows.append(["**Minutes**", *minutes, str(tried), ""])
    head = ["Crate", *KINDS, "Number of edits", "Dearest edit"]
    lines = [" | ".join(it).join(("| ", " |")).replace("  ", " ") for it in (head, *rows)]
    lines.insert(1, "|---" * len(head) + "|")
    total = sum(whole.values()) / 60
    if total > MOST_MINUTES:
        above.append(f"the whole: {total:.0f} minutes")
    chained, chain = longest_chain(below, {it: by_crate[it][PROOF] for it in below})
    said = f"In all {total:.1f} processor minutes: those of the table, {whole[BUILD] / 60:.1f} for building, linking and running, and "
    said += f"{whole[REST] / 60:.1f} for `rt` itself. The longest chain of proofs takes {chained / 60:.1f} of them: {', '.join(chain)}. "
    return [*lines, "", wrapped(said + f"Above the bounds: {', '.join(above) or 'nothing'}.")]


def wrapped(text):
    return textwrap.fill(text, 160, break_long_words=False, break_on_hyphens=False)


def machine():
    with open("/proc/cpuinfo", encoding="utf-8") as it:
        model = re.search(r"^model name\s*: (.*)", it.read(), re.M)
    kit = subprocess.run(["rt", "version"], capture_output=True, text=True).stdout.partition("\n")[0]
    return f"{len(os.sched_getaffinity(0))} processors ({model[1] if model else 'of an unknown model'}), {kit}"


def reference():
    """The processor seconds of the kit's own test."""
    begun = os.times()
    subprocess.run(["rt", "selftest"], stdout=subprocess.DEVNULL, check=True)
    ended = os.times()
    return ended.children_user + ended.children_system - begun.children_user - begun.children_system


def run(command):
    """Runs the command, and answers its status, its last line and its watch."""
    started = subprocess.Popen(command, cwd=TOP, stdout=subprocess.PIPE)
    for it in (signal.SIGTERM, signal.SIGINT):
        signal.signal(it, lambda number, _: started.send_signal(number))
    last = [""]

    def copy():
        for line in started.stdout:
            sys.stdout.buffer.write(line)
            sys.stdout.flush()
            last[0] = line.decode(errors="replace").strip() or last[0]

    copying, watch = threading.Thread(target=copy), Watch(started.pid)
    copying.start()
    # (an ended process is waited for behind the last look at it)
    while watch.look():
        time.sleep(EACH)
    status = started.wait()
    copying.join()
    return status, last[0], watch


# The pages of docs/generated: the title of each, and by what it is made.
PAGES = {
    "edits": ("Wrong bodies, crate by crate", "bench/edits.py --docs"),
    "rows": ("The rows of tests, crate by crate", "bench/rows.py --docs"),
    "gate": ("The gate's times, crate by crate", "bench/gate.py --docs"),
}


def page(name):
    return f"{TOP}/docs/generated/{name}.md"


def put_into_docs(text, name):
    """Writes a page of docs/generated."""
    title, command = PAGES[name]
    with open(page(name), "w", encoding="utf-8") as it:
        it.write(f"# {title}\n\nMade by `{command}`.\n\n{text}")


def main():
    parser = argparse.ArgumentParser(description=__doc__.partition("\n")[0])
    parser.add_argument("--into", metavar="FILE")
    parser.add_argument("--edits", action="store_true")
    parser.add_argument("--reference", action="store_true")
    parser.add_argument("--docs", action="store_true")
    parser.add_argument("--watch", metavar="PID", type=int)
    parser.add_argument("command", nargs="*", default=GATE)
    asked = parser.parse_args()
    if asked.docs and (asked.watch or asked.command not in (GATE, OLDER_GATE)):
        parser.error("only the whole gate from its begin goes into the pages")
    if asked.reference and asked.watch:
        parser.error("a run that is watched has no reference")
    compared = asked.reference or asked.docs
    before = reference() if compared else 0
    begun, status = time.monotonic(), 0
    if asked.watch:
        watch, ending = Watch(asked.watch, True), f"The process {asked.watch} was watched"
        while watch.look():
            time.sleep(EACH)
    else:
        status, last, watch = run(asked.command)
        ending = f"`{' '.join(asked.command)}` {'failed' if status else 'passed'}: {last or f'status {status}'}"
    took = (time.monotonic() - begun) / 60
    compares = f"`rt selftest` took {before:.0f} s of a processor before it and {reference():.0f} behind it. " if compared else ""
    said = wrapped(f"{ending}. That was on {datetime.date.today()}, in {took:.1f} minutes, on {machine()}. {compares}Processor seconds:")
    sums = watch.seconds()
    text = "\n".join([said, "", *table(sums)]) + "\n"
    more = "\n".join(["", "Seconds of each edit:", *list_of_edits(sums)]) + "\n" if asked.edits else ""
    if asked.into:
        with open(asked.into, "w", encoding="utf-8") as it:
            it.write(text + more)
    else:
        print(text + more, end="")
    if asked.docs and not status:
        put_into_docs(text, "gate")
        subprocess.run([sys.executable, f"{TOP}/docs/pictures.py", "gate"], check=True)
    return status if status >= 0 else 128 - status


if __name__ == "__main__":
    sys.exit(main())
