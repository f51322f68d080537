"""How far a build is: which crates the program needs, which of them are done by the lines of `rt ci`, and how long the others are likely to take."""

import contextlib
import os
import re
import threading
import time

SAID = re.compile(r"rt: (\w+):? (proved|is kept|NOT PROVED|another run)")


def read(path):
    with contextlib.suppress(OSError), open(path, encoding="utf-8", errors="replace") as it:
        return it.read()
    return ""


class Progress:
    def __init__(self, top, tell):
        """tell takes the words that are told."""
        self.lines = {it.replace(":", " ").split()[0]: it for it in read(f"{top}/crates.txt").splitlines(True) if ":" in it.partition("#")[0]}
        # The crates that the program needs, lowest first, with those that each stands on.
        self.below = {}
        self.visit("defmt_cli")
        # How many seconds of a processor each takes. With the last one the whole program is compiled.
        known = dict(re.findall(r"^\| (\w+) \| (\d+) \|", read(f"{top}/docs/generated/gate.md"), re.M))
        self.seconds = {it: int(known.get(it, 40)) + 120 * (it == "defmt_cli") for it in self.below}
        # Those that are done; how many of the foretold seconds went by with those that were proved; and when the build and the last of them began and ended.
        self.done, self.spent, self.tells = set(), 0, tell
        self.began = self.last = time.monotonic()
        self.ended = threading.Event()

    def visit(self, name):
        if name not in self.below and name in self.lines:
            deps = self.lines[name].partition("#")[0].partition(":")[2].split()
            for it in deps:
                self.visit(it)
            self.below[name] = [it for it in deps if it in self.lines]

    def left(self):
        """The seconds that the others were to take: those of their longest chain, which more jobs make shorter, or those of all side by side."""
        each, chain = {it: at * (it not in self.done) for it, at in self.seconds.items()}, {}
        for it, below in self.below.items():
            chain[it] = each[it] + max((chain[lower] for lower in below), default=0)
        return max(max(chain.values()) * 2 / 3, sum(each.values()) * 5 / 4 / len(os.sched_getaffinity(0)))

    def tell(self, name=""):
        # (by how long it took for what was proved so far; and a crate that takes long will take half as long again)
        left, since = self.left() * (self.last - self.began + 300) / (self.spent + 300), time.monotonic() - self.last
        minutes = int(max(left - since, since / 2)) // 60 + 1
        self.tells(f"crate {len(self.done)} of {len(self.below)} is done{name and f': {name}'}. About {minutes} minute{'s' * (minutes > 1)} left")

    def tell_each_minute(self):
        # (what an earlier run proved is done within seconds, and has no lines of its own)
        if not self.ended.wait(15) and self.done:
            self.tell()
        while not self.ended.wait(60):
            self.tell()

    def __enter__(self):
        self.tell()
        threading.Thread(target=self.tell_each_minute, daemon=True).start()

    def __exit__(self, *_):
        self.ended.set()

    def take(self, line):
        """Takes a line of `rt ci`, and answers whether the build is to go on."""
        found = SAID.match(line)
        name, what = found.groups() if found else ("", "")
        if name not in self.below:
            return True
        if what == "another run":
            self.tells(f"another rt proves {name}; waiting for it")
        elif what != "NOT PROVED":
            left, self.last = self.left(), time.monotonic()
            self.done.add(name)
            if what == "proved":
                self.spent += left - self.left()
                self.tell(name)
        return what != "NOT PROVED"
