"""Damages recordings and compares what the program decodes with what formats.py reads; see damage.sh.

    damage.py PROGRAM FOLDER TIMES SEED
"""

import array
import collections
import random
import subprocess
import sys

import formats

program, work, times, seed = sys.argv[1], sys.argv[2], int(sys.argv[3]), sys.argv[4]
counts = collections.Counter()


def count(is_good, what):
    """Counts a check, and tells one that failed, the first ones with what there is to say."""
    counts["passed" if is_good else "failed"] += 1
    if not is_good and counts["failed"] <= 5:
        print(f"FAILED: {what}")


def answer(words, given):
    """The status, the output and the words of the program; of one that is still at work after a minute, nothing."""
    try:
        done = subprocess.run([program, *words], input=given, capture_output=True, timeout=60)
    except subprocess.TimeoutExpired:
        return None
    return done.returncode, done.stdout, done.stderr


# ---- recordings

Frame = collections.namedtuple("Frame", "begin end line")


class Device:
    """A script of these statements, its table, what was recorded of it, and its frames, each with its place and its line."""

    def __init__(self, name, statements, has_stamps, profile, base):
        self.random = random.Random(f"{seed} {name}")
        tags = {"wrong": "other"}
        entries = [formats.Entry(tags.get(it, tag), text, it != "float") for it, tag, text in formats.DEVICE]
        self.table = formats.Table(entries, has_stamps, profile)
        self.maker = formats.Maker(self.random, self.table.entries)
        self.script = (["stamp 1000 250"] if has_stamps else []) + (["profile 2"] if profile == 2 else [])
        self.script += [f"s {it} defmt_{tag} {text}" for it, tag, text in formats.DEVICE]
        self.recording, self.frames, self.base = b"", [], base
        while len(self.frames) < statements:
            self.add_statement(len(self.frames))
        self.by_begin = {frame.begin: frame for frame in self.frames}
        self.origins = array.array("q", range(base, base + len(self.recording)))
        self.elf = f"{work}/{name}.elf"
        self.compare(name)

    def head(self, index, number, stamp):
        """What stands in a message in front of its arguments: the index, in profile 2 the place of the mark of this number, and the stamp."""
        place = (number % 65536).to_bytes(2, "little") if self.table.profile == 2 else b""
        return index.to_bytes(2, "little") + place + (stamp if self.table.stamp else b"")

    def add_statement(self, number):
        """Adds a statement by chance, unless its message is too long for a script. Its line is that of the arguments, which have been in no message."""
        index, body, arguments = self.maker.statement()
        has_stamps = self.table.stamp is not None
        stamp = 1000 + 250 * number
        message = self.head(index, number, stamp.to_bytes(8, "little")) + self.maker.joined(body, arguments)
        if len(message) > 2000:
            return
        line, tag = formats.text_of(body, arguments), self.table.entries[index].tag
        if tag != "println":
            line = (f"{stamp // 1000000}.{stamp % 1000000:06} " if has_stamps else "") + f"{tag.upper():5} {line}"
        self.script.append("w 0 " + self.maker.written(index, body, arguments))
        begin = self.base + len(self.recording)
        self.recording += formats.frame_of(message)
        self.frames.append(Frame(begin, self.base + len(self.recording), line))

    def compare(self, name):
        """Has the program make the table, and compares its recording and the lines that it prints."""
        script = "\n".join(self.script).encode()
        status, elf, _ = answer(["table"], script)
        wrong = b'"data":"wrong {=u8}","disambiguator":"%d","package":"script","tag":"defmt_w' % self.maker.indexes["wrong"]
        count((status, elf.count(b"float {=u32}"), elf.count(wrong + b"rite")) == (0, 1, 1), f"{name}: the table lacks a string")
        with open(self.elf, "wb") as file:
            file.write(elf.replace(b"float {=u32}", b"float {=f32}").replace(wrong + b"rite", wrong + b"rong"))
        read_back = self.table.events(self.recording)
        is_same = [(it.cause, it.line, it.missing) for it in read_back] == [(0, frame.line, 0) for frame in self.frames]
        count(is_same, f"{name}: the second reading doesn't read the frames that it makes")
        count(answer(["record"], script) == (0, self.recording, b""), f"{name}: what is recorded isn't the frames of the statements")
        lines = "".join(frame.line + "\n" for frame in self.frames).encode()
        count(answer(["print"], script) == (0, lines, b""), f"{name}: what is printed isn't the lines of the statements")


# ---- damage


class Stream:
    """Bytes, and of each from which place of which recording it is; -1 for a byte of elsewhere."""

    def __init__(self, device, first, last):
        begin, end = device.frames[first].begin - device.base, device.frames[last].end - device.base
        self.bytes, self.origins = bytearray(device.recording[begin:end]), device.origins[begin:end]

    def replace(self, begin, end, given, origins=None):
        self.bytes[begin:end] = given
        self.origins[begin:end] = array.array("q", [-1] * len(given)) if origins is None else origins

    def place(self, chance):
        return chance.randint(0, len(self.bytes))

    def stretch(self, chance):
        """Two places in order; half of them are near one another."""
        begin = self.place(chance)
        if chance.random() < 0.5:
            return begin, min(len(self.bytes), begin + chance.randint(1, 9))
        return tuple(sorted((begin, self.place(chance))))

    def zero(self, chance):
        """The place of a zero, or None where there is none."""
        begin = self.place(chance)
        place = self.bytes.find(0, begin)
        place = self.bytes.find(0) if place < 0 else place
        return None if place < 0 else place


def change_bits(chance, stream, device):
    for _ in range(chance.choice((1, 1, 1, 2, 8))):
        if stream.bytes:
            place = chance.randrange(len(stream.bytes))
            stream.replace(place, place + 1, bytes([stream.bytes[place] ^ 1 << chance.randrange(8)]))


def change_bytes(chance, stream, device):
    begin, end = stream.stretch(chance)
    end = min(end, begin + chance.choice((1, 1, 2, 9)))
    stream.replace(begin, end, bytes(chance.choice((0, 1, 0x7E, 0x7F, 0x80, 0xFE, 0xFF, chance.randrange(256))) for _ in range(end - begin)))


def cut_out(chance, stream, device):
    begin, end = stream.stretch(chance)
    stream.replace(begin, end, b"")


def cut_front(chance, stream, device):
    stream.replace(0, chance.randint(1, 40), b"")


def cut_end(chance, stream, device):
    length = len(stream.bytes)
    stream.replace(max(0, length - chance.randint(1, 40)), length, b"")


def put_in_zeros(chance, stream, device):
    for _ in range(chance.choice((1, 1, 2, 5))):
        place = stream.place(chance)
        stream.replace(place, place, bytes(chance.choice((1, 1, 2, 7))))


def take_out_zeros(chance, stream, device):
    for _ in range(chance.choice((1, 1, 2, 5))):
        place = stream.zero(chance)
        if place is not None:
            stream.replace(place, place + 1, b"")


def frame_near(chance, stream):
    """The two places of a frame, or of what stands between two zeros."""
    begin = stream.zero(chance)
    if begin is None:
        return 0, 0
    while begin + 1 < len(stream.bytes) and stream.bytes[begin + 1] == 0:
        begin += 1
    end = stream.bytes.find(0, begin + 1)
    return begin, len(stream.bytes) if end < 0 else end + 1


def repeat(chance, stream, device):
    """A stretch, a frame, or a piece without its zeros stands there twice, or a second time elsewhere."""
    begin, end = stream.stretch(chance) if chance.random() < 0.4 else frame_near(chance, stream)
    if chance.random() < 0.3 and end - begin > 2:
        begin, end = begin + 1, end - 1
    place = end if chance.random() < 0.5 else stream.place(chance)
    stream.replace(place, place, stream.bytes[begin:end], stream.origins[begin:end])


def move(chance, stream, device):
    begin, end = stream.stretch(chance) if chance.random() < 0.5 else frame_near(chance, stream)
    given, origins = stream.bytes[begin:end], stream.origins[begin:end]
    stream.replace(begin, end, b"")
    place = stream.place(chance)
    stream.replace(place, place, given, origins)


def put_in_bytes(chance, stream, device):
    """Bytes by chance, or a stretch of any device's recording."""
    place = stream.place(chance)
    if chance.random() < 0.5:
        stream.replace(place, place, chance.randbytes(chance.choice((1, 2, 7, 30))))
        return
    other = chance.choice(devices)
    begin = chance.randrange(len(other.recording))
    end = begin + chance.choice((3, 20, 200))
    stream.replace(place, place, other.recording[begin:end], other.origins[begin:end])


def put_in_long(chance, stream, device):
    """A piece about as long as the longest that is read."""
    if chance.random() < 0.05:
        place = stream.place(chance)
        piece = (bytes(range(1, 256)) * 258)[: 65536 + chance.randint(-3, 3)]
        stream.replace(place, place, b"\0" + piece + b"\0" * chance.randrange(2))


def put_in_limit(chance, stream, device):
    """A frame at a limit: of weights, of a line's length, of depth, of the zeros behind the last argument."""
    if chance.random() < 0.7:
        return
    indexes = device.maker.indexes
    index = {name: it.to_bytes(2, "little") for name, it in indexes.items()}
    name, rest = chance.choice(
        (
            ("many", chance.randint(8191, 8194).to_bytes(4, "little") + index["dot"]),
            ("twice", chance.randint(4095, 4098).to_bytes(4, "little") + index["dot"]),
            ("many", chance.randint(6552, 6555).to_bytes(4, "little") + index["word"]),
            ("value", index["nested"] * chance.randint(14, 17) + index["dot"]),
            ("hello", bytes(chance.randint(5, 14))),
        )
    )
    place = stream.place(chance)
    head = device.head(indexes[name], chance.randrange(65536), chance.randbytes(8))
    stream.replace(place, place, formats.frame_of(head + rest))


def change_message(chance, stream, device):
    """A message is changed, and framed again."""
    begin, end = frame_near(chance, stream)
    try:
        message = bytearray(formats.stands_for(bytes(stream.bytes[begin + 1 : end - 1])))
    except formats.Fault:
        return
    for _ in range(chance.choice((1, 1, 2))):
        place = chance.randint(0, len(message))
        kind = chance.randrange(6)
        if kind == 0:
            message[place : place + 1] = chance.randbytes(1)
        elif kind == 1:
            message[place : place + 2] = chance.randint(0, len(device.table.entries) + 1).to_bytes(2, "little")
        elif kind == 2:
            message[place : place + 4] = chance.choice((0, 1, 2, 8191, 8192, 8193, 0xFFFFFFFF)).to_bytes(4, "little")
        elif kind == 3:
            del message[place:]
        elif kind == 4:
            message += bytes(chance.choice((1, 6, 7))) + chance.choice((b"", b"\1"))
        else:
            message[place:place] = chance.choice((b"\0", b"\xff", b"\xc3", b"\xed\xa0\x80", b"\xf0\x9f\xa6\x80", b"\x10", b"\x11"))
    stream.replace(begin, end, formats.frame_of(bytes(message)))


DAMAGES = [change_bits, change_bytes, cut_out, cut_front, cut_end, put_in_zeros, take_out_zeros, repeat, move]
DAMAGES += [put_in_bytes, put_in_long, put_in_limit, change_message, change_message]


def damaged(number):
    """The device and the stream of this number, and the damages that it has."""
    chance = random.Random(f"{seed} {number}")
    device = chance.choices(devices, (10, 10, 1, 10))[0]
    first, last = 0, len(device.frames) - 1
    if device is not devices[2] and chance.random() < 0.9:
        first = chance.randint(0, last)
        last = min(last, first + chance.randint(0, 12))
    stream = Stream(device, first, last)
    damages = chance.choices(DAMAGES, k=chance.randint(1, 6))
    for damage in damages:
        damage(chance, stream, device)
    return device, stream, [damage.__name__ for damage in damages]


# ---- what has to come


def whole_frames(device, stream):
    """Each frame that stands whole in the stream: where, and its line."""
    place = stream.bytes.find(0)
    while place >= 0:
        frame = device.by_begin.get(stream.origins[place])
        if frame:
            length = frame.end - frame.begin
            first = frame.begin - device.base
            if stream.origins[place : place + length] == device.origins[first : first + length]:
                yield place, frame.line
        place = stream.bytes.find(0, place + 1)


def due_of(device, stream):
    """The answer that is due, in which the lines of whole frames stand in their places; else None."""
    events = device.table.events(bytes(stream.bytes))
    by_place = {event.begin: (event.cause, event.line) for event in events}
    frames = list(whole_frames(device, stream))
    if any(by_place.get(place + 1) != (0, line) for place, line in frames):
        return None
    faults = sum(1 for event in events if event.cause)
    counts["frames"] += len(frames)
    for event in events:
        counts["cause", event.cause] += 1
        counts["gaps"] += event.missing > 0
    said = f"events with faults {faults}\n" if faults else ""
    return (9 if faults else 0), formats.printed(events).encode(), said.encode()


def compare(what, device, stream):
    """Decodes a stream, and compares the answer with the one that is due."""
    due = due_of(device, stream)
    given = bytes(stream.bytes)
    came = answer(["decode", "--table", device.elf], given)
    is_good = due is not None and came == due
    count(is_good, "" if is_good else f"{what}: of {given[:2000].hex()} was due {str(due)[:2000]}, and came {str(came)[:2000]}")


def pieces_of_each_cause(device):
    """A piece for each cause, from 1 on, as docs/FORMATS.md says where each comes."""
    index = {name: it.to_bytes(2, "little") for name, it in device.maker.indexes.items()}
    number = (8192).to_bytes(4, "little")
    messages = [
        b"\xff\xff",
        index["num"],
        index["float"] + bytes(4),
        index["ints"],
        index["flag"] + b"\2",
        index["letter"] + b"\0\xd8\0\0",
        index["name"] + b"\1\0\0\0\xff",
        index["value"] + index["opt"] + b"\2",
        index["value"] + index["nested"] * 17,
        index["hello"] + b"\5",
        index["many"] + b"\1\x20\0\0" + index["dot"],
        b"",
        index["many"] + number + index["word"],
    ]
    return [b"\1"] + [b"\1" * 65537 if not it else formats.code_of(it) for it in messages]


def try_each_cause(device):
    """The first recording: a frame, then a piece of each cause, then the frame again."""
    stream = Stream(device, 0, 0)
    for cause, piece in enumerate(pieces_of_each_cause(device), 1):
        told = device.table.tell(piece)[0]
        count(told == cause, f"the piece of the cause {cause} is read as {told}")
        stream.replace(len(stream.bytes), len(stream.bytes), b"\0" + piece + b"\0")
    frame = device.frames[0]
    stream.replace(len(stream.bytes), len(stream.bytes), device.recording[: frame.end - frame.begin], device.origins[: frame.end - frame.begin])
    compare("a piece of each cause", device, stream)


# ---- programs that do wrong


def try_wrong_programs():
    """Programs that stand in for the real one, of which each does one wrong, have to be told."""
    global program
    real, wrongs = program, {
        "changes nothing": "cat",
        "loses its second line": "sed 2d",
        "tells a fault as a line": "sed 's/^-- E1 Cobs$/INFO  hello/'",
        "tells its first line twice": "sed 1p",
        "ends at the first fault": "sed '/^-- E/q'",
        "tells a front and a tail as nothing": "sed '/^-- [ft]/d'",
        "tells no gap": "sed '/^-- gap/d'",
    }
    for what, change in wrongs.items():
        with open(f"{work}/wrong", "w", encoding="utf-8") as file:
            file.write(f"#!/bin/bash\n'{real}' \"$@\" > '{work}/right'; status=$?\n{change} '{work}/right'\nexit $status\n")
        subprocess.run(["chmod", "+x", f"{work}/wrong"], check=True)
        program, told = f"{work}/wrong", 0
        for number in range(40):
            device, stream, _ = damaged(number)
            told += answer(["decode", "--table", device.elf], bytes(stream.bytes)) != due_of(device, stream)
        program = real
        count((told == 0) == (change == "cat"), f"a program that {what}: {told} of 40 answers are told")


devices = []
# The large recording is heard in several parts. The last has places.
for name, statements, has_stamps, profile in (("plain", 60, False, 1), ("stamped", 60, True, 1), ("large", 4000, True, 1), ("placed", 60, True, 2)):
    devices.append(Device(name, statements, has_stamps, profile, sum(len(it.recording) for it in devices)))

count(len(devices[2].recording) > 65536, "the large recording is heard in one part")

try_each_cause(devices[0])
for number in range(times):
    device, stream, damages = damaged(number)
    compare(f"recording {number} ({', '.join(damages)})", device, stream)

pieces = [counts["cause", it] for it in range(1, 15)]
print(f"{times} damaged recordings: {counts['frames']} whole frames, {sum(pieces)} damaged pieces, {counts['cause', 15]} fronts and tails, {counts['gaps']} gaps")
print("pieces by cause: " + ", ".join(f"{name} {it}" for name, it in zip(formats.CAUSES[1:], pieces)))
try_wrong_programs()
print(f"{counts['passed']} passed, {counts['failed']} failed")
sys.exit(1 if counts["failed"] else 0)
