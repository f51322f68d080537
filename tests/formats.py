"""A second reading of docs/FORMATS.md, apart from the crates: the frames and lines of statements, and the events of a stream.

damage.py and fuzz.py stand on it. It takes the strings of DEVICE, of which none is refused, and those that a test refuses by hand.
"""

import collections
import re

CAUSES = ("", "Cobs", "NoEntry", "Tag", "Unsupported", "Short", "BadBool", "BadChar", "BadText", "BadVariant", "Deep", "Trailing", "Many", "Long", "Wide")
LEVELS = ("trace", "debug", "info", "warn", "error")
FORMS = ("prim", "derived", "write")
SIZES = {"8": 1, "16": 2, "32": 4, "64": 8, "128": 16, "size": 4}
WIDTHS = {sign + bits: size for sign in "ui" for bits, size in SIZES.items()}

# A name, a tag and a text each: all kinds, all hints, and strings by which each cause can come.
DEVICE = [line.split(" ", 2) for line in r"""
num prim {=u8}
opt prim None|Some({=?})
point derived Point {{ x: {=i16}, y: {=i16} }}
state derived Idle|Moving({=u8})|At({=?})|Twice({0=?:x} {0=?})
pair write <{1=[?]}{0=?:?}>
nested prim ({})
dot prim .
word prim 12345678
volts str volts
quote str a "b" {0=u8
hello info hello
count warn count {=u16} of {0=u16:#06x}
letter info {=char}
name info {=str}
flag println flag {=bool}
uints trace {=u8:#04x} {=u16:o} {=u32:us} {=u64:ms} {=u128:X} {=usize:a}
ints debug {=i8:x} {=i16} {=i32:#b} {=i64:us} {=i128:?} {=isize:#012X}
texts warn {=bool} {=char:?} {2=str}, {2=str:?} {3=istr} {3=istr:?}
bytes error {=[u8]:a} {1=[u8]} {1=[u8]:02x} {2=[u8; 3]:#X} {3=[u8; 0]:?}
bits info {0=0..4:#b} {0=8..12} {1=56..128:x} {2=9..17:ms} {3=104..128} {2=0..1}
value info {=?} {0:x}
hinted debug {:#010b} {=?:?} {2=?:us} and {2}
lists debug {=[?]:x} {=[?; 2]} {=[?; 0]}
many info {=[?]}
twice info {0=[?]} {0=[?]}
turns println {2=u8} {1=str} {0=?}
float info float {=u32}
wrong write wrong {=u8}
""".strip().split("\n")]

Parameter = collections.namedtuple("Parameter", "position kind hint")
Interned = collections.namedtuple("Interned", "index text")
# A Format value or an item of a list: the string's index, the variant or None, the text's reading, and the arguments.
Node = collections.namedtuple("Node", "index variant body arguments")
# What a part of a stream tells: where it begins, its cause (0 for none, 15 of a front or tail), its output line, and how many frames are missing in front of it.
Event = collections.namedtuple("Event", "begin cause line missing")


class Fault(Exception):
    """A piece gives no line; this is its first cause."""

    def __init__(self, cause):
        super().__init__(CAUSES[cause])
        self.cause = cause


# ---- format strings

TOKEN = re.compile(r"\{\{|\}\}|\{(\d*)(?:=([^:}]*))?(?::([^}]*))?\}")
RADIX = re.compile(r"(#?)(?:0(\d+))?([xXbo])")


def pieces_of(text):
    pieces, place, unwritten = [], 0, 0
    for token in TOKEN.finditer(text):
        pieces.append(text[place : token.start()])
        place = token.end()
        if token[0] in ("{{", "}}"):
            pieces.append(token[0][0])
            continue
        if token[1]:
            position = int(token[1])
        else:
            position, unwritten = unwritten, unwritten + 1
        pieces.append(Parameter(position, token[2] or "?", token[3] or ""))
    return pieces + [text[place:]]


def bounds_of(field):
    low, high = field.split("..")
    return int(low), int(high)


def window_of(fields):
    """The first byte and the width of what is sent for bit fields."""
    first = min(bounds_of(field)[0] for field in fields) // 8
    last = (max(bounds_of(field)[1] for field in fields) - 1) // 8
    width = next(width for width in (1, 2, 4, 8, 16) if first + width > last)
    return min(first, 16 - width), width


def length_of(slot):
    """The N of an array's kind."""
    return int(slot[:-1].split(";")[1])


class Body:
    """A format string: its pieces, the slot of each position, and how often each is used."""

    def __init__(self, text):
        self.pieces = pieces_of(text)
        kinds = collections.defaultdict(list)
        for piece in self.pieces:
            if isinstance(piece, Parameter):
                kinds[piece.position].append(piece.kind)
        self.uses = [len(kinds[position]) for position in range(len(kinds))]
        self.slots = [window_of(kinds[position]) if ".." in kinds[position][0] else kinds[position][0] for position in range(len(kinds))]


class Entry:
    """A string of the table. Where its text is refused it has no bodies."""

    def __init__(self, tag, text, is_supported=True):
        self.tag, self.text = tag, text
        self.bodies = []
        if is_supported and tag != "str":
            self.bodies = [Body(part) for part in (text.split("|") if tag in FORMS else [text])]


# ---- printed values


def unsigned(value, hint):
    if hint == "us":
        return f"{value // 1000000}.{value % 1000000:06}"
    if hint == "ms":
        return f"{value // 1000}.{value % 1000:03}"
    return in_radix(value, hint)


def in_radix(value, hint):
    read = RADIX.fullmatch(hint)
    if not read:
        return str(value)
    prefix = read[1] and "0" + read[3].lower()
    return prefix + format(value, read[3]).rjust(int(read[2] or 0) - len(prefix), "0")


def signed(value, size, hint):
    return in_radix(value % 256**size, hint) if RADIX.fullmatch(hint) else str(value)


ESCAPES = {"\n": "\\n", "\r": "\\r", "\t": "\\t", "\\": "\\\\"}


def quoted(text, quote):
    return quote + "".join(ESCAPES.get(letter, "\\" + quote if letter == quote else letter) for letter in text) + quote


def byte_text(value):
    letters = (chr(byte) for byte in value)
    return 'b"' + "".join(ESCAPES.get(it, '\\"' if it == '"' else it if " " <= it <= "~" else f"\\x{ord(it):02x}") for it in letters) + '"'


def listed(texts):
    return "[" + ", ".join(texts) + "]"


def shown(value, kind, hint):
    """The text of a value of this kind under this hint."""
    if ".." in kind:
        low, high = bounds_of(kind)
        return unsigned(value >> low & (1 << high - low) - 1, hint)
    if kind in WIDTHS:
        return unsigned(value, hint) if kind[0] == "u" else signed(value, WIDTHS[kind], hint)
    if kind == "bool":
        return "true" if value else "false"
    if kind == "char":
        return quoted(value, "'") if hint == "?" else value
    if kind in ("str", "istr"):
        text = value.text if kind == "istr" else value
        return quoted(text, '"') if hint == "?" else text
    if kind.startswith("[u8"):
        return byte_text(value) if hint == "a" else listed(in_radix(byte, hint) for byte in value)
    if kind == "?":
        return text_of(value.body, value.arguments, hint)
    return listed(text_of(item.body, item.arguments, hint) for item in value)


def text_of(body, arguments, hint=""):
    """The text of these arguments under the hint that acts from outside."""
    return "".join(piece if isinstance(piece, str) else shown(arguments[piece.position], piece.kind, piece.hint or hint) for piece in body.pieces)


# ---- codes


def code_of(message):
    """The code of a message, without the zeros of its frame."""
    code, place = bytearray(), 0
    while place < len(message):
        block = message[place : place + 7]
        if len(block) < 7 or 0 in block:
            code += bytes(byte for byte in block if byte)
            code.append(sum(1 << bit for bit in range(7) if bit >= len(block) or block[bit] == 0))
            place += 7
            continue
        block = message[place : place + 134]
        length = block.index(0) if 0 in block else len(block)
        code += block[:length]
        code.append(0x80 + length - 7)
        place += length if length == 134 else length + 1
    return bytes(code)


def stands_for(code):
    """What a code stands for, read from its end backwards."""
    blocks, end = [], len(code)
    while end > 0:
        end -= 1
        byte = code[end]
        if byte < 0x80:
            stored = sum(1 for bit in range(7) if not byte >> bit & 1)
        else:
            stored = (byte & 0x7F) + 7
        if byte == 0 or end < stored:
            raise Fault(1)
        kept, end = code[end - stored : end], end - stored
        if byte < 0x80:
            rest = iter(kept)
            kept = bytes(0 if byte >> bit & 1 else next(rest) for bit in range(7))
        elif byte < 0xFF:
            kept += b"\0"
        blocks.append(kept)
    return b"".join(reversed(blocks))


def frame_of(message):
    return b"\0" + code_of(message) + b"\0"


# ---- messages


class Reader:
    """Reads the arguments of a text from a message, from left to right."""

    def __init__(self, table, message):
        self.table, self.message = table, message
        self.place = self.sum = 0

    def take(self, count):
        if len(self.message) - self.place < count:
            raise Fault(5)
        self.place += count
        return self.message[self.place - count : self.place]

    def number(self, size):
        return int.from_bytes(self.take(size), "little")

    def entry(self, tags):
        """The index that comes next, and its entry, which has one of these tags."""
        index = self.number(2)
        if index not in self.table.entries:
            raise Fault(2)
        entry = self.table.entries[index]
        if entry.tag not in tags:
            raise Fault(4 if entry.tag == "other" else 3)
        if not entry.bodies and entry.tag != "str":
            raise Fault(4)
        return index, entry

    def arguments(self, body, depth=0, weight=1):
        return [self.value(slot, depth, weight * uses) for slot, uses in zip(body.slots, body.uses)]

    def value(self, slot, depth, weight):
        if isinstance(slot, tuple):
            return self.number(slot[1]) << 8 * slot[0]
        if slot in WIDTHS:
            return int.from_bytes(self.take(WIDTHS[slot]), "little", signed=slot[0] == "i")
        if slot == "?":
            return self.items(1, depth, weight)[0]
        if slot == "istr":
            index, entry = self.entry(("str",))
            return Interned(index, entry.text)
        if slot.startswith("["):
            count = length_of(slot) if ";" in slot else self.number(4)
            return self.take(count) if slot.startswith("[u8") else self.items(count, depth, weight)
        return {"bool": self.flag, "char": self.letter, "str": self.text}[slot]()

    def flag(self):
        value = self.number(1)
        if value > 1:
            raise Fault(6)
        return value == 1

    def letter(self):
        value = self.number(4)
        if value > 0x10FFFF or 0xD800 <= value < 0xE000:
            raise Fault(7)
        return chr(value)

    def text(self):
        value = self.take(self.number(4))
        try:
            return value.decode()
        except UnicodeDecodeError:
            raise Fault(8) from None

    def items(self, count, depth, weight):
        """So many values of one string, which stand in so many others."""
        if count == 0:
            return []
        if depth == 16:
            raise Fault(10)
        index, entry = self.entry(FORMS)
        return [self.item(index, entry.bodies, depth, weight) for _ in range(count)]

    def item(self, index, bodies, depth, weight):
        self.sum += weight
        if self.sum > 8192:
            raise Fault(12)
        variant = None
        if len(bodies) > 1:
            variant = self.number(1)
            if variant >= len(bodies):
                raise Fault(9)
        body = bodies[variant or 0]
        return Node(index, variant, body, self.arguments(body, depth + 1, weight))


def missing_between(last, place):
    """How many frames are missing between two lines, by their places, where both have one."""
    return 0 if last is None or place is None else (place - last - 1) % 65536


def printed(events):
    """The output of events: the line of each, and in front of a line how many frames are missing, where some are."""
    return "".join((f"-- gap {event.missing}\n" if event.missing else "") + event.line + "\n" for event in events)


class Table:
    """The strings by their indexes, and what pieces tell by them. In profile 2 each message has a place."""

    def __init__(self, entries, has_stamps, profile=1):
        self.entries = dict(enumerate(entries, 1))
        self.profile = profile
        self.stamp = None
        if has_stamps:
            self.stamp = self.entries[len(entries) + 1] = Entry("timestamp", "{=u64:us}")
        self.told = {}

    def line_of(self, message):
        """The line of a message, and its place, None in profile 1."""
        reader = Reader(self, message)
        _, entry = reader.entry(LEVELS + ("println",))
        place = reader.number(2) if self.profile == 2 else None
        stamp = ""
        if self.stamp:
            body = self.stamp.bodies[0]
            stamp = text_of(body, reader.arguments(body)) + " "
        reader.sum = 0
        body = entry.bodies[0]
        arguments = reader.arguments(body)
        rest = message[reader.place :]
        if len(rest) > 6 or any(rest):
            raise Fault(11)
        text = text_of(body, arguments)
        if len(text.encode()) > 65536:
            raise Fault(14)
        return (text if entry.tag == "println" else f"{stamp}{entry.tag.upper():5} {text}"), place

    def tell(self, piece):
        """The cause of a piece, 0 for none, its output line, and its frame's place, where it has one."""
        if piece not in self.told:
            try:
                if len(piece) > 65536:
                    raise Fault(13)
                told = 0, *self.line_of(stands_for(piece))
            except Fault as fault:
                told = fault.cause, f"-- E{fault.cause} {CAUSES[fault.cause]}", None
            if len(piece) > 3000:
                return told
            self.told[piece] = told
        return self.told[piece]

    def events(self, stream):
        """The events of a stream. What is missing is counted from the line before, whatever faults stand between."""
        events, begin, last, parts = [], 0, None, stream.split(b"\0")
        for number, part in enumerate(parts):
            if part and number == 0:
                events.append(Event(begin, 15, f"-- front {len(part)}", 0))
            elif part and number == len(parts) - 1:
                events.append(Event(begin, 15, f"-- tail {len(part)}", 0))
            elif part:
                cause, line, place = self.tell(part)
                events.append(Event(begin, cause, line, 0 if cause else missing_between(last, place)))
                last = last if cause else place
            begin += len(part) + 1
        return events


# ---- statements made by chance


class Maker:
    """Makes arguments for the strings of DEVICE: as values, as their spelling in a script, and as bytes."""

    def __init__(self, random, entries):
        self.random, self.entries = random, entries
        self.indexes = {name: index for index, (name, _, _) in enumerate(DEVICE, 1)}
        self.names = {index: name for name, index in self.indexes.items()}
        self.logged = [index for index in self.names if entries[index].bodies and entries[index].tag in LEVELS + ("println",)]

    def statement(self):
        """The index of a string that can be logged, its reading, and arguments for it."""
        index = self.random.choice(self.logged)
        body = self.entries[index].bodies[0]
        return index, body, self.arguments(body)

    def written(self, index, body, arguments):
        """A statement behind its writer in a script."""
        return " ".join([self.names[index], *map(self.spelled, body.slots, arguments)])

    def arguments(self, body, depth=0):
        return [self.value(slot, depth) for slot in body.slots]

    def some_bytes(self, count):
        return bytes(self.random.choice((0, 1, 10, 34, 65, 92, 127, 255, self.random.randrange(256))) for _ in range(count))

    def letter(self):
        return self.random.choice("aZ0 \"'\\\n\t{}|#é€𐍈" + chr(self.random.randrange(0x20, 0xD800)))

    def integer(self, size, is_signed):
        value = self.random.choice((0, 1, 256**size - 1, 256**size >> 1, self.random.randrange(256**size), self.random.randrange(256)))
        return value - 256**size if is_signed and value >= 256**size >> 1 else value

    def value(self, slot, depth):
        if isinstance(slot, tuple):
            return self.integer(slot[1], False) << 8 * slot[0]
        if slot in WIDTHS:
            return self.integer(WIDTHS[slot], slot[0] == "i")
        if slot == "bool":
            return self.random.random() < 0.5
        if slot == "char":
            return self.letter()
        if slot == "str":
            return "".join(self.letter() for _ in range(self.random.choice((0, 1, 3, 8, 150))))
        if slot == "istr":
            index = self.indexes[self.random.choice(("volts", "quote"))]
            return Interned(index, self.entries[index].text)
        if slot == "?":
            return self.nodes(1, depth)[0]
        count = length_of(slot) if ";" in slot else self.random.choice((0, 1, 2, 9))
        return self.some_bytes(count) if slot.startswith("[u8") else self.nodes(count, depth)

    def nodes(self, count, depth):
        names = ("num", "dot", "word", "point") if depth > 2 else ("num", "opt", "point", "state", "pair", "dot", "word")
        index = self.indexes[self.random.choice(names)]
        bodies = self.entries[index].bodies
        nodes = []
        for _ in range(count):
            variant = self.random.randrange(len(bodies)) if len(bodies) > 1 else None
            body = bodies[variant or 0]
            nodes.append(Node(index, variant, body, self.arguments(body, depth + 1)))
        return nodes

    # ---- in a script

    def spelled(self, slot, value):
        if slot == "bool":
            return "true" if value else "false"
        if slot == "char":
            return quoted(value, "'")
        if slot == "str":
            return quoted(value, '"')
        if slot == "istr":
            return "@" + self.names[value.index]
        if isinstance(value, bytes):
            return "#" + value.hex()
        if slot == "?":
            return self.names[value.index] + ("" if value.variant is None else f":{value.variant}") + self.bracketed(value)
        if isinstance(value, list):
            items = (("" if item.variant is None else str(item.variant)) + self.bracketed(item) for item in value)
            return f"{self.names[value[0].index]}[{' '.join(items)}]" if value else "[]"
        return str(value)

    def bracketed(self, node):
        return "(" + " ".join(map(self.spelled, node.body.slots, node.arguments)) + ")"

    # ---- in a message

    def sent(self, slot, value):
        if isinstance(slot, tuple):
            return (value >> 8 * slot[0]).to_bytes(slot[1], "little")
        if slot in WIDTHS:
            return value.to_bytes(WIDTHS[slot], "little", signed=slot[0] == "i")
        if slot == "bool":
            return bytes([value])
        if slot == "char":
            return ord(value).to_bytes(4, "little")
        if slot == "istr":
            return value.index.to_bytes(2, "little")
        if slot == "?":
            return value.index.to_bytes(2, "little") + self.item(value)
        if slot == "str":
            value = value.encode()
        length = b"" if ";" in slot else len(value).to_bytes(4, "little")
        if isinstance(value, bytes):
            return length + value
        return length + (value[0].index.to_bytes(2, "little") if value else b"") + b"".join(map(self.item, value))

    def item(self, node):
        return (b"" if node.variant is None else bytes([node.variant])) + self.joined(node.body, node.arguments)

    def joined(self, body, arguments):
        return b"".join(map(self.sent, body.slots, arguments))
