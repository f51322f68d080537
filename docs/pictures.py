#!/usr/bin/env python3
"""Draws the pictures of docs/ that are made by a script.

    docs/pictures.py [NAME..]     of layers, graph, frame, waiting, term, steer and gate; without names all

layers.svg and the graph in ARCHITECTURE.md are drawn of crates.txt. frame.svg shows bytes that tests/formats.py, a reading of FORMATS.md apart
from the crates, makes of a message; gate.svg takes its seconds from generated/gate.md. Each picture has a light ground of its own, so it can be read on a light page and on a dark one.
"""

import html
import os
import re
import sys
import textwrap

DOCS = os.path.dirname(os.path.abspath(__file__))
sys.path.insert(0, f"{DOCS}/../tests")
sys.dont_write_bytecode = True
from formats import code_of, frame_of  # noqa: E402

STYLE = """\
    text { font-family: 'DejaVu Sans Mono', Menlo, Consolas, monospace; font-size: 13px; fill: #1b1b1b; }
    .head { font-size: 16px; font-weight: bold; }
    .title { font-weight: bold; }
    .note { font-size: 12px; fill: #444; }
    .small { font-size: 11px; fill: #444; }
    .tiny { font-size: 10px; fill: #444; }
    .box { fill: #ffffff; stroke: #333; stroke-width: 1.3; }
    .cell { fill: #dce9f7; stroke: #333; }
    .zero { fill: #f6e3c5; }
    .mark { fill: #d8ecd2; }
    .pale { fill: #f1f1f1; }
    .free { fill: #ffffff; }
    .line { fill: none; stroke: #333; stroke-width: 1.2; }
    .rule { fill: none; stroke: #ccc; }
    .arrow { fill: none; stroke: #333; stroke-width: 1.5; }
    .dashed { stroke-dasharray: 5 4; }
    .proof { fill: #3f6fa8; }
    .tests { fill: #e0a33b; }
    .before { fill: #9db8d6; }
    .edits { fill: #7aa868; }"""
HEAD = '  <defs>\n    <marker id="head" viewBox="0 0 10 10" refX="9" refY="5" markerWidth="8" markerHeight="8" orient="auto"><path d="M0,0 L10,5 L0,10 z" fill="#333"/></marker>\n  </defs>'


class Picture:
    """A picture of some width, whose height is known when it is whole."""

    def __init__(self, name, width, title):
        self.name, self.width, self.title, self.parts = name, width, title, []

    def text(self, x, y, words, kind="", anchor=""):
        kind = f' class="{kind}"' if kind else ""
        anchor = f' text-anchor="{anchor}"' if anchor else ""
        self.parts.append(f'  <text x="{x:g}" y="{y:g}"{kind}{anchor}>{html.escape(words, quote=False)}</text>')

    def box(self, x, y, width, height, kind="box"):
        self.parts.append(f'  <rect x="{x:g}" y="{y:g}" width="{width:g}" height="{height:g}" class="{kind}"/>')

    def line(self, path, kind="line"):
        end = ' marker-end="url(#head)"' if "arrow" in kind else ""
        self.parts.append(f'  <path d="{path}" class="{kind}"{end}/>')

    def cell(self, x, y, words, kind="cell", width=40):
        self.box(x, y, width, 28, kind)
        if words:
            self.text(x + width / 2, y + 18.5, words, anchor="middle")

    def over(self, x, to, y, words):
        """A bracket over some cells, with words on it."""
        self.line(f"M{x:g},{y:g} L{x:g},{y - 6:g} L{to:g},{y - 6:g} L{to:g},{y:g}")
        self.text((x + to) / 2, y - 13, words, "note", "middle")

    def save(self, height):
        size = f'width="{self.width}" height="{height:g}" viewBox="0 0 {self.width} {height:g}"'
        lines = [f'<svg xmlns="http://www.w3.org/2000/svg" {size} role="img" aria-labelledby="name">', f'  <title id="name">{html.escape(self.title, quote=False)}</title>']
        lines += ["  <style>", STYLE, "  </style>", HEAD, f'  <rect width="{self.width}" height="{height:g}" fill="#ffffff"/>', *self.parts, "</svg>"]
        with open(f"{DOCS}/{self.name}.svg", "w", encoding="utf-8") as it:
            it.write("\n".join(lines) + "\n")


# ---- a frame, byte by byte


def frame():
    it = Picture("frame", 1000, "The frame of one statement byte by byte, in profile 1 and in profile 2: the message in blocks of seven bytes, the code of each block, and the frame between two zeros")
    it.text(30, 36, "One frame, byte by byte", "head")
    it.text(30, 58, 'w 0 boot "reset" of examples/device.defmtl: string 3, stamp 1000 microseconds; the first statement of all', "note")
    index, place, stamp, length, words = (3).to_bytes(2, "little"), bytes(2), (1000).to_bytes(8, "little"), (5).to_bytes(4, "little"), b"reset"
    fields = [("index 3", index), ("stamp 1000, in 8 bytes", stamp), ("5 bytes of text", length), ('"reset"', words)]
    y = profile(it, 96, "Profile 1", fields)
    fields.insert(1, ("place 0", place))
    y = profile(it, y + 44, "Profile 2: behind the index stands the number of the statement among all, modulo 65,536", fields)
    it.text(30, y + 34, "The reader finds the zeros, and reads a code from its end: a code byte tells by its clear bits, of the lowest seven, how many bytes", "note")
    it.text(30, y + 52, "stand in front of it. Zeros that fill the last block stand behind the message, and are passed over.", "note")
    it.save(y + 76)


def profile(it, y, name, fields):
    message = b"".join(at for _, at in fields)
    missing = -len(message) % 7
    it.text(30, y, name, "head")
    it.text(30, y + 26, f"Message, {len(message)} bytes" + (f" and {missing} that fill the last block" if missing else ""), "title")
    at, row = 0, y + 74
    place = lambda number: 30 + 40 * number + 20 * (number // 7)
    for words, part in [*fields, ("fill", bytes(missing))] if missing else fields:
        it.over(place(at) + 3, place(at + len(part) - 1) + 37, row - 4, words)
        for number, byte in enumerate(part, at):
            it.cell(place(number), row, f"{byte:02x}", "cell pale" if number >= len(message) else "cell" if byte else "cell free")
        at += len(part)
    row += 66
    it.text(30, row, f"Code, {len(code_of(message))} bytes: of each seven those that aren't zero, then a byte whose bits tell where zeros stand", "title")
    coded, padded, written = row + 16, message + bytes(missing), []
    for block in range(len(padded) // 7):
        seven = padded[7 * block : 7 * block + 7]
        it.line(f"M{place(7 * block) + 3},{row - 30} L{place(7 * block) + 3},{row - 24} L{place(7 * block) + 277},{row - 24} L{place(7 * block) + 277},{row - 30}")
        kept = [at for at in seven if at]
        mark = sum(1 << bit for bit, at in enumerate(seven) if not at)
        middle, left = place(7 * block) + 140, place(7 * block) + 140 - 20 * (len(kept) + 1)
        for number, byte in enumerate([*kept, mark]):
            it.cell(left + 40 * number, coded, f"{byte:02x}", "cell mark" if number == len(kept) else "cell")
        written += [*kept, mark]
        zeros = [str(bit) for bit in range(7) if mark >> bit & 1]
        it.text(middle, coded + 48, f"{mark:02x} = {mark:08b}", "note", "middle")
        it.text(middle, coded + 66, ("byte " if len(zeros) == 1 else "bytes ") + " ".join(zeros) + (" is zero" if len(zeros) == 1 else " are zero"), "note", "middle")
    if bytes(written) != code_of(message):
        raise SystemExit("the blocks aren't those of the code")
    row = coded + 104
    framed = frame_of(message)
    it.text(30, row, f"Frame, {len(framed)} bytes: the code between two zeros", "title")
    marks = [number + 1 for number in range(len(written)) if is_mark(written, padded, number)]
    for number, byte in enumerate(framed):
        kind = "cell zero" if not byte else "cell mark" if number in marks else "cell"
        it.cell(30 + 40 * number, row + 16, f"{byte:02x}", kind)
        it.text(50 + 40 * number, row + 60, str(number), "small", "middle")
    return row + 64


def is_mark(written, padded, number):
    """Whether this byte of a code ends a block."""
    at = -1
    for block in range(len(padded) // 7):
        at += sum(1 for byte in padded[7 * block : 7 * block + 7] if byte) + 1
        if at == number:
            return True
    return False


# ---- who waits for whom


def waits(it, path, words="", x=0, y=0, anchor="middle"):
    it.line(path, "arrow dashed")
    if words:
        it.text(x, y, words, "note", anchor)


def goes(it, path, words, x, y):
    it.line(path, "arrow")
    it.text(x, y, words, "note", "middle")


def writers(it, names, ys, dots):
    for name, y in zip(names, ys):
        it.box(30, y, 140, 40)
        it.text(44, y + 25, name)
    it.text(100, dots, "...", anchor="middle")


def lock(it, x, y, height, title, notes, parts, width=230):
    it.box(x, y, width, height)
    it.text(x + 14, y + 24, title, "title")
    for number, words in enumerate(notes):
        it.text(x + 14, y + 44 + 17 * number, words, "note")
    for words, at, kind in parts:
        it.box(x + 14, at, width - 28, 40, kind)
        it.text(x + 26, at + 25, words)


def ring(it, x, y, words, notes=()):
    it.box(x - 10, y, 140, 48, "cell zero")
    it.text(x + 60, y + 29, words, anchor="middle")
    for number, note in enumerate(notes):
        it.text(x + 60, y + 66 + 16 * number, note, "small", "middle")


def start(name, title, heading, height_note="Dashed: waits for. Solid: bytes go."):
    it = Picture(name, 1080, title)
    it.text(30, 36, heading, "head")
    it.text(30, 58, height_note, "note")
    return it


def waiting():
    it = start("waiting", "Who waits for whom in blocking mode: writers wait for the lock, the writer that has it waits for the reader where its frame does not fit, and the reader waits for nobody until all writers have ended", "Who waits for whom in blocking mode")
    writers(it, ("writer 0", "writer 1", "writer 7"), (132, 192, 276), 258)
    for y in (152, 212, 296):
        waits(it, f"M170,{y} L327,{y}")
    it.text(248, 144, "waits for the lock", "note", "middle")
    lock(it, 330, 120, 212, "Lock", ["one writer at a time"], [("desk, with the tape", 180, "cell"), ("upper end", 248, "cell")])
    it.text(344, 318, "held for one frame each", "note")
    waits(it, "M445,120 L445,92 L985,92 L985,187", "who has the lock, and whose frame doesn't fit: waits for room", 715, 84)
    goes(it, "M546,268 L677,268", "put, publish", 620, 260)
    ring(it, 690, 244, "ring")
    goes(it, "M820,268 L907,268", "take", 862, 260)
    it.box(910, 190, 140, 142)
    it.text(924, 214, "Reader", "title")
    for number, words in enumerate(("lower end", "", "waits for", "nobody until", "all writers", "have ended")):
        it.text(924, 234 + 17 * number, words, "note") if words else None
    it.text(30, 368, "The reader never asks for the lock while a thread runs, and its takes make room: no chain of waiting closes.", "note")
    it.text(30, 388, "In skip and trim mode nobody waits for the reader: the upper arrow isn't there.", "note")
    it.text(30, 408, "Statements that the threads have left are logged by the calling thread, which is the reader.", "note")
    it.save(428)


def term():
    it = start("term", "Who waits for whom with texts for terminals: a writer waits for one of two locks at a time, who has a lock waits for room in its own ring alone, and the reader takes at both rings and waits for nobody until all writers have ended", "Who waits for whom with text terminals: two locks, two rings")
    writers(it, ("writer 0", "writer 1", "writer 7"), (186, 246, 346), 322)
    lock(it, 350, 112, 164, "Lock of the logger", ["a pen's step: one frame"], [("desk, with the tape", 170, "cell"), ("upper end", 222, "cell")])
    lock(it, 350, 318, 164, "Lock of the booth", ["a voice's step: one line"], [("stand, with the words", 376, "cell"), ("upper end", 428, "cell")])
    for y, up, down in ((206, 180, 370), (266, 200, 400), (366, 250, 430)):
        waits(it, f"M170,{y} L347,{up}")
        waits(it, f"M170,{y} L347,{down}")
    it.text(184, 128, "waits for one", "note")
    it.text(184, 145, "of the locks, with", "note")
    it.text(184, 162, "no other in hand", "note")
    ring(it, 700, 222, "ring of the log", ("its size is the script's",))
    ring(it, 700, 424, "terminals' ring", ("1,024 bytes",))
    goes(it, "M566,246 L687,246", "put, publish", 636, 238)
    goes(it, "M566,448 L687,448", "put, publish", 636, 440)
    goes(it, "M830,246 L917,246", "take", 872, 238)
    goes(it, "M830,448 L917,448", "take", 872, 440)
    it.box(920, 204, 130, 284)
    it.text(934, 230, "Reader", "title")
    for number, words in enumerate(("both lower", "ends, in turn", "", "waits for", "nobody until", "all writers", "have ended", "", "late: takes at", "the terminals'", "ring alone")):
        it.text(934, 252 + 17 * number, words, "note") if words else None
    waits(it, "M465,112 L465,90 L985,90 L985,201", "in blocking mode, and where its frame doesn't fit: waits for room in the log's ring", 725, 82)
    waits(it, "M465,482 L465,520 L985,520 L985,491", "in every mode, where its line doesn't fit: waits for room in the terminals' ring", 725, 538)
    it.text(30, 574, "Who waits for room has its own lock alone, and the reader asks for neither while a thread runs: no chain of waiting closes.", "note")
    it.text(30, 594, "With a late reader the log isn't in blocking mode, so nobody waits for room in its ring.", "note")
    it.save(616)


def steer():
    it = start("steer", "Who waits for whom under orders: helms wait for the lock, who has it waits for room in the ring of frames where its frame does not fit, and the host, which sends orders down a second ring, waits for nobody until all turns were taken", "Who waits for whom under orders: one lock, two rings, of which one leads down")
    writers(it, ("helm 0", "helm 1", "helm 7"), (152, 212, 320), 296)
    for y in (172, 232, 340):
        waits(it, f"M170,{y} L327,{y}")
    it.text(248, 164, "waits for the lock", "note", "middle")
    lock(it, 330, 124, 292, "Lock of the steered logger", ["one turn: look down once, hear,", "then send the frame or mute it"], [("lower end of orders, ear", 196, "cell"), ("bridge, with the turns", 272, "cell"), ("upper end of frames", 348, "cell")], 250)
    ring(it, 690, 192, "ring of orders", ("256 bytes: room", "for all 64 orders"))
    ring(it, 690, 344, "ring of frames", ("its size is the script's",))
    goes(it, "M680,216 L569,216", "take", 630, 208)
    goes(it, "M900,216 L823,216", "skip", 862, 208)
    goes(it, "M566,368 L677,368", "put, publish", 630, 360)
    goes(it, "M820,368 L897,368", "take", 858, 360)
    it.box(900, 168, 150, 248)
    it.text(914, 194, "Host", "title")
    for number, words in enumerate(("the calling thread", "", "takes frames, and", "counts whole ones;", "sends what is due", "by that count", "", "waits for nobody", "until all turns", "were taken")):
        it.text(914, 216 + 17 * number, words, "note") if words else None
    waits(it, "M455,124 L455,92 L975,92 L975,165", "who has the lock, and whose frame doesn't fit: waits for room", 715, 84)
    it.text(30, 452, "Nobody waits for an order: a turn looks down once and goes on with what came. The host never asks for the lock while a thread runs.", "note")
    it.text(30, 472, "A turn that is muted sends no frame, and so brings no further order nearer.", "note")
    it.save(494)


# ---- the gate's time, crate by crate


def gate():
    with open(f"{DOCS}/generated/gate.md", encoding="utf-8") as it:
        text = it.read()
    kinds, rows = ("proof", "tests", "before", "edits"), []
    for line in text.split("\n"):
        if found := re.match(r"\| (\w+) \|(.*)\|$", line):
            seconds = [int(at) if at.strip().isdigit() else 0 for at in found[2].split("|")[:4]]
            if sum(seconds):
                rows.append((found[1], seconds))
    whole = re.search(r"In all ([\d.]+)\s+processor\s+minutes", text)
    when = re.search(r"That was on (\S+),\s+in\s+([\d.]+)\s+minutes,\s+on\s+(\d+)\s+processors", text)
    most = max(sum(seconds) for _, seconds in rows)
    scale = 760 / (most / 100 + 1) / 100
    it = Picture("gate", 1060, "The processor seconds of the gate, crate by crate: proofs, tests, the checks before the edits, and the edits")
    it.text(30, 36, "The gate's time, crate by crate", "head")
    it.text(30, 58, f"Processor seconds of rt ci --anew on {when[1]}: {whole[1]} processor minutes in all, {when[2]} by the clock on {when[3]} processors.", "note")
    x = 30
    for kind, words in zip(kinds, ("proof", "tests", "check before edits", "edits")):
        it.box(x, 72, 14, 14, kind)
        it.text(x + 20, 84, words, "note")
        x += 60 + 8 * len(words)
    top, bottom = 116, 116 + 20 * len(rows)
    for seconds in range(0, int(most) + 100, 100):
        at = 170 + seconds * scale
        it.line(f"M{at:g},{top - 6} L{at:g},{bottom}", "rule")
        it.text(at, top - 10, str(seconds), "small", "middle")
    for number, (name, seconds) in enumerate(rows):
        y, at = top + 20 * number, 170
        it.text(160, y + 12, name, "note", "end")
        for kind, spent in zip(kinds, seconds):
            if spent:
                it.box(at, y + 1, spent * scale, 14, kind)
                at += spent * scale
        it.text(at + 6, y + 12, str(sum(seconds)), "small")
    it.save(bottom + 24)


# ---- the crates by layers


def read_layers():
    """The layers of crates.txt, each a name with its crates, and for each crate those that it stands on and that no other of these stands on."""
    layers, below = [], {}
    with open(f"{DOCS}/../crates.txt", encoding="utf-8") as it:
        for line in it:
            if line.startswith("# "):
                layers.append((line[2:].strip().partition(":")[0], []))
            elif line.strip():
                head, _, deps = line.partition(":")
                layers[-1][1].append(head.split()[0])
                below[head.split()[0]] = deps.split()
    whole = {}
    for name, deps in below.items():
        ours = [it for it in deps if it in below]
        whole[name] = set(ours).union(*(whole[it] for it in ours))
        below[name] = [it for it in ours if not any(it in whole[other] for other in ours)]
    return layers, below


def layers():
    it = Picture("layers", 1100, "The crates by layers, the lowest at the foot: each with the crates that it stands on")
    it.text(30, 36, "The crates by layers", "head")
    it.text(30, 58, "Each stands on those in small letters, and on what these stand on; lower layers know nothing of those above.", "note")
    cakes, below = read_layers()
    y = 76
    for title, names in reversed(cakes):
        rows = [names[at : at + 4] for at in range(0, len(names), 4)]
        heights = []
        for row in rows:
            lines = [textwrap.wrap(", ".join(below[name]), 33, break_long_words=False, break_on_hyphens=False) if not name.endswith("_tests") else [] for name in row]
            heights.append((row, lines, 30 + 13 * max(map(len, lines))))
        height = sum(at for _, _, at in heights) + 8 * len(rows) + 8
        it.box(20, y, 1060, height, "cell pale")
        for number, part in enumerate(textwrap.wrap(title, 14)):
            it.text(30, y + 24 + 16 * number, part, "title")
        top = y + 8
        for row, lines, tall in heights:
            for number, (name, on) in enumerate(zip(row, lines)):
                x = 150 + 232 * number
                it.box(x, top, 224, tall)
                it.text(x + 8, top + 18, name)
                for at, part in enumerate(on):
                    it.text(x + 8, top + 33 + 13 * at, part, "tiny")
            top += tall + 8
        y += height + 8
    it.text(30, y + 16, "A crate of tests stands on test_rows and on the crates that it tests.", "note")
    it.save(y + 32)


def graph():
    """Writes the graph of ARCHITECTURE.md: an arrow from each crate to those that it stands on, without what those stand on themselves."""
    path, begin = f"{DOCS}/ARCHITECTURE.md", "```mermaid\ngraph BT\n"
    with open(path, encoding="utf-8") as it:
        front, found, rest = it.read().partition(begin)
    if not found:
        raise SystemExit(f"{path} has no graph")
    cakes, below = read_layers()
    cakes = [(title, names) for title, names in cakes if title != "Tests"]
    lines = []
    for number, (title, names) in enumerate(cakes):
        lines += [f'    subgraph layer{number} ["{title}"]', *(f"        {name}" for name in names), "    end"]
    lines += [f"    {name} --> {other}" for _, names in cakes for name in names for other in below[name]]
    with open(path, "w", encoding="utf-8") as it:
        it.write(front + begin + "\n".join(lines) + "\n" + rest[rest.index("```") :])


DRAWN = {"layers": layers, "graph": graph, "frame": frame, "waiting": waiting, "term": term, "steer": steer, "gate": gate}

if __name__ == "__main__":
    for each in sys.argv[1:] or DRAWN:
        DRAWN[each]()
