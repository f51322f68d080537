"""Gives the program inputs made and changed by chance, and checks how each call ends; see fuzz.sh.

    fuzz.py PROGRAM FOLDER TIMES SEED
"""

import collections
import glob
import json
import os
import random
import re
import struct
import subprocess
import sys

import formats

program, work, times, seed = sys.argv[1], sys.argv[2], int(sys.argv[3]), sys.argv[4]
patience = 60
counts = collections.Counter()


def count(is_good, what):
    """Counts a check, and tells the first ones that failed."""
    counts["passed" if is_good else "failed"] += 1
    if not is_good and counts["failed"] <= 5:
        print(f"FAILED: {what}")


def answer(words, given):
    """The status, the output and the words of the program; of one that is still at work after a minute no status."""
    try:
        done = subprocess.run([program, *words], input=given, capture_output=True, timeout=patience)
    except subprocess.TimeoutExpired:
        return None, b"", b""
    return done.returncode, done.stdout, done.stderr


# ---- changes of bytes and of text

BYTES = (0, 1, 0x0A, 0x20, 0x7F, 0x80, 0xC3, 0xFE, 0xFF)
NUMBERS = (
    b"0", b"1", b"7", b"8", b"00", b"15", b"16", b"127", b"128", b"255", b"256", b"4096", b"65535", b"65536", b"4294967296", b"281474976710656",
    b"281474976710657", b"9" * 40,
)  # fmt: skip
WORDS = (
    b"{", b"}", b"{{", b"}}", b"{=u8}", b"{=", b"{=?}", b"{0=?:x}", b"{=[?]}", b"{=[?; 3]}", b"{=[u8; 2]:a}", b"{=0..4}", b"{3=istr:?}", b"{=f32}",
    b":#010x", b":us", b"|", b"..", b"(", b")", b"[", b"]", b"()", b"[()]", b"opt:1(", b"num(7)", b"point[(1 2)]", b"@", b"@volts", b"#", b"#0aff",
    b"0x", b"0xfF", b"-", b"-1", b"'", b"'a'", b'"', b'"\\u{10ffff}"', b"\\u{d800}", b"\\", b"\\n", b"s ", b"w ", b"w 0 ", b"ring 16", b"mode skip",
    b"mode trim", b"mode block", b"reader late", b"stamp 0 1", b"defmt_info", b"defmt_println", b"defmt_str", b"true", b" ", b"  ", b"\n", b"\r\n",
    b"\r", b"\t", b"\0", b"\xc3\xa9", b"\xed\xa0\x80", b"\xf4\x90\x80\x80", b"\xff", b"\xe2\x80\xa8",
)  # fmt: skip


def change_bytes(chance, given):
    """Changes, cuts out, puts in and repeats bytes."""
    given = bytearray(given)
    for _ in range(chance.choice((1, 1, 2, 4, 16))):
        begin = chance.randint(0, len(given))
        end = min(len(given), begin + chance.choice((1, 1, 2, 4, 30, 400)))
        kind = chance.randrange(6)
        if kind == 0 and begin < end:
            given[begin] ^= 1 << chance.randrange(8)
        elif kind == 1:
            given[begin : begin + 1] = bytes([chance.choice(BYTES)])
        elif kind == 2:
            del given[begin:end]
        elif kind == 3:
            given[begin:begin] = chance.randbytes(end - begin)
        elif kind == 4:
            given[begin:begin] = given[begin:end]
        else:
            given[begin:end] = bytes([chance.choice(BYTES)]) * (end - begin)
    return bytes(given)


def change_words(chance, given):
    """Puts words in, writes over with them, once or very often, and changes numbers."""
    given = bytearray(given)
    for _ in range(chance.choice((1, 1, 2, 3, 6))):
        begin = chance.randint(0, len(given))
        word = chance.choice(WORDS + NUMBERS) * chance.choice((1, 1, 1, 1, 1, 2, 17, 300, 5000) if chance.random() < 0.3 else (1,))
        kind = chance.randrange(3)
        if kind == 0:
            given[begin:begin] = word
        elif kind == 1:
            given[begin : begin + len(word)] = word
        else:
            numbers = list(re.finditer(rb"\d+", given))
            if numbers:
                number = chance.choice(numbers)
                given[number.start() : number.end()] = chance.choice(NUMBERS)
    return bytes(given)


def change_lines(chance, given):
    """Repeats, leaves out and moves lines, and takes some from another script."""
    lines = given.split(b"\n")
    for _ in range(chance.choice((1, 1, 2, 4))):
        place, other = chance.randrange(len(lines)), chance.randrange(len(lines))
        kind = chance.randrange(4)
        if kind == 0:
            lines.insert(other, lines[place])
        elif kind == 1 and len(lines) > 1:
            del lines[place]
        elif kind == 2:
            lines[place], lines[other] = lines[other], lines[place]
        else:
            lines.insert(place, chance.choice(chance.choice(scripts).split(b"\n")))
    return b"\n".join(lines)


def by_chance(chance):
    """Bytes, or words, or lines that begin as those of scripts do."""
    kind = chance.randrange(3)
    if kind == 0:
        return chance.randbytes(chance.choice((0, 1, 5, 60, 1000)))
    if kind == 1:
        return b"".join(chance.choices(WORDS + NUMBERS, k=chance.randint(0, 60)))
    starts = (b"ring ", b"mode ", b"reader ", b"stamp ", b"profile ", b"d 0 ", b"s a defmt_info ", b"s b defmt_prim ", b"w 0 a ", b"t 0 A ", b"#")
    return b"\n".join(chance.choice(starts) + b"".join(chance.choices(WORDS + NUMBERS, k=chance.randint(0, 4))) for _ in range(chance.randint(1, 8)))


# ---- scripts


def settings_of(chance):
    """Lines of settings as a script may have them."""
    settings = [f"ring {chance.choice((16, 17, 64, 1024, 65536))}"] if chance.random() < 0.7 else []
    mode = chance.choice(("", "block", "skip", "trim"))
    settings += [f"mode {mode}"] if mode else []
    settings += [chance.choice(("reader live", "reader late"))] if mode in ("skip", "trim") else []
    settings += [f"stamp {chance.choice((0, 1000, 2**48))} {chance.choice((0, 250, 2**48))}"] if chance.random() < 0.3 else []
    settings += [f"profile {chance.choice((1, 2))}"] if chance.random() < 0.3 else []
    levels = ("trace", "debug", "info", "warn", "error")
    return settings + [f"d {chance.choice((0, 0, 1, 3, 4096))} {chance.choice(levels)}" for _ in range(chance.choice((0, 0, 0, 1, 3, 64)))]


def whole_script(chance, settings, writers):
    """A script that is taken, with strings and arguments of all kinds, and statements and texts for terminals of so many writers."""
    table = formats.Table([formats.Entry(tag, text) for _, tag, text in formats.DEVICE], False)
    maker = formats.Maker(chance, table.entries)
    lines = settings + [f"s {name} defmt_{tag} {text}" for name, tag, text in formats.DEVICE]
    length = len(lines) + chance.randint(5, 30)
    while len(lines) < length:
        if chance.random() < 0.2:
            text = "".join(chance.choices("abcdefghijklmnopqrstuvwxyz ,.", k=chance.randint(0, 60)))
            lines.append(f"t {chance.randrange(writers)} {chance.choice('0123456789ABCDEF')} {text}")
            continue
        index, body, arguments = maker.statement()
        if len(maker.joined(body, arguments)) <= 1988:
            lines.append(f"w {chance.randrange(writers)} {maker.written(index, body, arguments)}")
    return "\n".join(lines).encode() + b"\n"


REFUSED_LINE = re.compile(rb"script line (\d+) cause (\d+) inner (\d+)\n")


def is_refused_line(words, script, said):
    """Whether these are words of a line that this script has. Another mode is refused by `steer` alone."""
    read = REFUSED_LINE.fullmatch(said)
    if not read:
        return False
    line, cause, inner = map(int, read.groups())
    inners = {4: range(1, 9), 10: range(9)}.get(cause, range(1))
    if not 1 <= line <= script.count(b"\n") + 1 or inner not in inners:
        return False
    if cause == 18:
        return words == ["steer"] and script.split(b"\n")[line - 1].startswith(b"mode ")
    return 1 <= cause <= 13 or 15 <= cause <= 17 or cause == 19


def try_script(chance):
    kind = chance.randrange(10)
    if kind == 0:
        script = by_chance(chance)
    else:
        script = whole_script(chance, settings_of(chance), 8) if kind < 6 else chance.choice(scripts)
        for change in chance.choices((change_bytes, change_words, change_words, change_lines), k=0 if kind < 4 else chance.choice((1, 1, 2, 3))):
            script = change(chance, script)
    words = chance.choice((["run"], ["run", "--group"], ["record"], ["term"], ["steer"], ["table"], ["print"]))
    status, output, said = answer(words, script)
    is_good = (status == 0 and said == b"") or (status == 5 and output == b"" and is_refused_line(words, script, said))
    if is_good and words != ["print"] and chance.random() < 0.25:
        also = answer(["print"], script)
        is_good = also[0] == 0 if b" cause 18 " in said else also[0] == status and also[2] == said
        if status == 0 and words == ["run", "--group"] and not re.search(rb"^(stamp|mode (skip|trim))", script, re.MULTILINE):
            is_good = is_good and also[1] == output
    return is_good, words, script, (status, output, said)


# ---- tables


def table_file(symbols, bits):
    """An ELF file of this class with symbols of .defmt, as pairs of a name and a value; that of 32 bits as docs/FORMATS.md has it."""
    strings, rows = b"\0", [(0, 0, 0, 0)]
    markers = [(b"_defmt_version_ = 4", 1, 16, 0xFFF1), (b"_defmt_encoding_ = rzcobs", 1, 16, 0xFFF1)]
    for name, value, info, section in markers + [(name, value, 16, 1) for name, value in symbols]:
        rows.append((len(strings), value, info, section))
        strings += name + b"\0"
    if bits == 32:
        header, size, align = 52, 16, 4
        listed = b"".join(struct.pack("<IIIBBH", name, value, 0, info, 0, section) for name, value, info, section in rows)
    else:
        header, size, align = 64, 24, 8
        listed = b"".join(struct.pack("<IBBHQQ", name, info, 0, section, value, 0) for name, value, info, section in rows)
    names = b"\0.defmt\0.symtab\0.strtab\0.shstrtab\0"
    body = listed + strings + names
    body += bytes(-(header + len(body)) % align)
    places = [header, header, header + len(listed), header + len(listed) + len(strings)]
    sections = [
        (0,) * 10,
        (1, 1, 0, 0, places[0], 0, 0, 0, 1, 0),
        (8, 2, 0, 0, places[1], len(listed), 3, 1, align, size),
        (16, 3, 0, 0, places[2], len(strings), 0, 0, 1, 0),
        (24, 3, 0, 0, places[3], len(names), 0, 0, 1, 0),
    ]
    form = "<IIIIIIIIII" if bits == 32 else "<IIQQQQIIQQ"
    identity = b"\x7fELF" + bytes([1 if bits == 32 else 2, 1, 1]) + bytes(9)
    place = header + len(body)
    if bits == 32:
        start = struct.pack("<HHIIIIIHHHHHH", 2, 40, 1, 0, 0, place, 0, 52, 0, 0, 40, 5, 4)
    else:
        start = struct.pack("<HHIQQQIHHHHHH", 2, 40, 1, 0, 0, place, 0, 64, 0, 0, 64, 5, 4)
    return identity + start + body + b"".join(struct.pack(form, *section) for section in sections)


def symbols_of(strings, has_stamps):
    """The symbols of a script's strings."""
    rows = [(text, f"defmt_{tag}") for _, tag, text in strings] + ([("{=u64:us}", "defmt_timestamp")] if has_stamps else [])
    keys = ({"data": text, "disambiguator": str(index), "package": "script", "tag": tag} for index, (text, tag) in enumerate(rows, 1))
    return [(json.dumps(it, separators=(",", ":"), ensure_ascii=False).encode(), index) for index, it in enumerate(keys, 1)]


JSON_WORDS = (
    b'"tag"', b'"data":', b'"package":"p"', b'"tag":"defmt_timestamp"', b'"tag":"defmt_write"', b'"tag":"defmt_other"', b'"disambiguator":7', b"null",
    b"true", b"1e999", b"-0", b"[", b"]", b"{", b"}", b"[" * 127, b"[" * 128, b"]" * 127, b'"', b"\\", b"\\u0000", b"\\ud800", b"\\ud83d\\ude00",
    b"\\u00e9", b"\\n", b",", b":", b" ", b"x" * 4096, b"x" * 4097, b"{=?}", b"{=[?; 65535]}", b"|" * 300,
)  # fmt: skip


def changed_symbols(chance):
    """A table file whose symbols have changed names and values, and which is whole else."""
    symbols = symbols_of(formats.DEVICE, chance.random() < 0.5)
    for _ in range(chance.choice((1, 1, 2, 5))):
        place = chance.randrange(len(symbols))
        name, value = symbols[place]
        kind = chance.randrange(5)
        begin = chance.randint(0, len(name))
        if kind == 0:
            value = chance.choice((0, 1, 2, 65535, 65536, 0xFFFFFFFF))
        elif kind == 1:
            name = change_bytes(chance, name)
        elif kind == 2:
            name = name[:begin] + chance.choice(JSON_WORDS + WORDS) + name[begin:]
        elif kind == 3:
            word = chance.choice(JSON_WORDS + WORDS)
            name = name[:begin] + word + name[begin + len(word) :]
        else:
            name = name.replace(b'"data":"', b'"data":"' + b"".join(chance.choices(WORDS, k=3)).replace(b'"', b""))
        symbols[place] = name, value
    return table_file(symbols, chance.choice((32, 64)))


def changed_table(chance):
    """A table file in which a field, or any bytes, are changed."""
    given = bytearray(chance.choice(tables))
    for _ in range(chance.choice((1, 1, 1, 2, 3))):
        where = chance.choice((64, 64, 320, 320, len(given)))
        begin = chance.randrange(where)
        begin = begin if chance.random() < 0.5 else len(given) - 1 - begin
        size = chance.choice((1, 2, 4, 8))
        value = int.from_bytes(given[begin : begin + size], "little")
        value = chance.choice((0, 1, 2, value + 1, value - 1, value * 2, len(given), len(given) - 1, 256**size - 1, 256**size // 2, chance.randrange(256**size)))
        given[begin : begin + size] = (value % 256**size).to_bytes(size, "little")[: len(given) - begin]
    return bytes(given)


REFUSED_FILE = re.compile(rb"table elf cause [1-9] place \d+\n|table name cause [2-6] symbol \d+\n")
FAULT = re.compile(rb"^-- (E([1-9]|1[0-4]) [A-Za-z]+|front \d+|tail \d+)$", re.MULTILINE)


def is_heard(status, output, said):
    """Whether a recording was heard: the number that is said is that of the lines which tell a fault."""
    faults = len(FAULT.findall(output))
    return (status, said) == ((9, b"events with faults %d\n" % faults) if faults else (0, b""))


def try_table(chance):
    kind = chance.randrange(10)
    if kind == 0:
        given = by_chance(chance)
    elif kind < 4:
        given = changed_symbols(chance)
    elif kind < 8:
        given = changed_table(chance)
    else:
        given = change_bytes(chance, chance.choice(tables))
    with open(f"{work}/changed.elf", "wb") as file:
        file.write(given)
    words = ["decode", "--table", f"{work}/changed.elf"]
    status, output, said = answer(words, chance.choice((some_frames, recordings[0])))
    is_good = is_heard(status, output, said) or (status == 6 and output == b"" and REFUSED_FILE.fullmatch(said) is not None)
    return is_good, words, given, (status, output, said)


# ---- recordings


def try_recording(chance):
    """A recording by chance, or a changed one."""
    kind = chance.randrange(4)
    place = chance.randrange(len(recordings))
    if kind == 0:
        given = by_chance(chance)
    elif kind == 1:
        given = bytes(chance.choices((0, 0, 1, 2, 11, 24, 0x7E, 0x7F, chance.randrange(256)), k=chance.choice((3, 30, 300))))
    else:
        given = change_bytes(chance, recordings[place])
    words = ["decode", "--table", f"{work}/{place}.elf"]
    status, output, said = answer(words, given)
    return is_heard(status, output, said), words, given, (status, output, said)


# ---- programs that do wrong


def try_wrong_programs():
    """Programs that stand in for the real one have to be refused, but for the one that does as it does."""
    global program, patience
    real = program
    wrongs = {
        "does as it does": 'cat out; cat said >&2; exit $status',
        "ends by a signal": 'kill -SEGV $$',
        "is aborted": 'exit 134',
        "says another status": 'cat out; cat said >&2; exit 1',
        "writes although it refuses": 'cat out; [ $status -eq 0 ] || echo; cat said >&2; exit $status',
        "says nothing": 'cat out; exit $status',
        "hangs": 'exec sleep 20',
    }
    for what, end in wrongs.items():
        with open(f"{work}/wrong", "w", encoding="utf-8") as file:
            file.write(f"#!/bin/bash\n'{real}' \"$@\" > {work}/out 2> {work}/said; status=$?\ncd {work}\n{end}\n")
        os.chmod(f"{work}/wrong", 0o755)
        program, patience = f"{work}/wrong", 1 if what == "hangs" else 60
        for name, one in (("script", try_script), ("table", try_table), ("recording", try_recording)):
            chance = random.Random(f"{seed} wrong {name}")
            refused = sum(not one(chance)[0] for _ in range(1 if what == "hangs" else 12))
            if what != "writes although it refuses" or name != "recording":
                count((refused == 0) == (what == "does as it does"), f"a program that {what}: {refused} answers on inputs of the kind {name} are refused")
    program, patience = real, 60


# ---- all

# Of one writer in blocking mode, so that each recording is the same in each run.
scripts = [whole_script(random.Random(f"{seed} whole"), settings, 1) for settings in ([], ["stamp 1000 250"], ["profile 2"])]
recordings, tables = [], []
for number, script in enumerate(scripts):
    made = answer(["table"], script), answer(["record"], script)
    count(all(status == 0 and said == b"" for status, _, said in made), f"the script {number} isn't taken: {made[0][2]} {made[1][2]}")
    tables.append(made[0][1])
    recordings.append(made[1][1])
    with open(f"{work}/{number}.elf", "wb") as file:
        file.write(made[0][1])
some_frames = b"".join(formats.frame_of(index.to_bytes(2, "little") + rest) for index in range(32) for rest in (b"", bytes(8), b"\1" * 30))

examples = os.path.join(os.path.dirname(os.path.abspath(__file__)), "..", "examples", "*.defmtl")
for name in sorted(glob.glob(examples)):
    with open(name, "rb") as file:
        scripts.append(file.read())

of_32, of_64 = (table_file(symbols_of(formats.DEVICE, False), bits) for bits in (32, 64))
count(of_32 == tables[0], "the table of 32 bits isn't the one that is written")
with open(f"{work}/64.elf", "wb") as file:
    file.write(of_64)
decoded = [answer(["decode", "--table", f"{work}/{name}.elf"], recordings[0] + some_frames) for name in ("0", "64")]
count(decoded[0] == decoded[1] and decoded[0][0] == 9, "the table of 64 bits isn't read as that of 32")
tables.append(of_64)

for number in range(times):
    chance = random.Random(f"{seed} {number}")
    name, one = chance.choices((("script", try_script), ("table", try_table), ("recording", try_recording)), (4, 3, 3))[0]
    is_good, words, given, came = one(chance)
    counts[name, came[0]] += 1
    about = f"input {number}, a {name}, to {' '.join(words)}: status {came[0]}, said {came[2][:200]}, wrote {came[1][:200]}"
    count(is_good, "" if is_good else f"{about}; the input is {given[:3000].hex()}")

for name in ("script", "table", "recording"):
    statuses = sorted((status for kind, status in (it for it in counts if isinstance(it, tuple)) if kind == name), key=str)
    print(f"{name}: " + ", ".join(f"status {status} {counts[name, status]} times" for status in statuses))
try_wrong_programs()
print(f"{counts['passed']} passed, {counts['failed']} failed")
sys.exit(1 if counts["failed"] else 0)
