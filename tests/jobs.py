"""Decodes recordings by many threads and compares the answers with those of one; see jobs.sh.

    jobs.py PROGRAM FOLDER TIMES SEED
"""

import collections
import os
import random
import subprocess
import sys

program, work, times, seed = sys.argv[1], sys.argv[2], int(sys.argv[3]), sys.argv[4]
counts = collections.Counter()


def count(is_good, what):
    """Counts a check, and tells one that failed, the first ones with what there is to say."""
    counts["passed" if is_good else "failed"] += 1
    if not is_good and counts["failed"] <= 5:
        print(f"FAILED: {what}")


def answer(words, given):
    """The status, the output and the words of the program; of one that is still at work after a minute, nothing."""
    try:
        done = subprocess.run([program, *words], input=given, capture_output=True, timeout=60)
    except subprocess.TimeoutExpired:
        return None
    return done.returncode, done.stdout, done.stderr


# ---- recordings

STRINGS = [
    's hello defmt_info hello',
    's num defmt_warn {=u8} of {=u32:#x}',
    's text defmt_error {=str} and {=[u8]:a}',
    's line defmt_println {=bool}',
    's little defmt_trace {=0..4} {0=4..8}',
    's one defmt_derived None|Some({=i16})',
    's list defmt_debug {=[?]} {=?}',
]
FLOATS = ['s shown defmt_info {=f32} {=__internal_Display} {=__internal_FormatSequence}']


def statement(chance, is_full):
    """A statement by chance, as a script has it."""
    number = chance.randrange
    choices = [
        "hello",
        f"num {number(256)} {number(2 ** 32)}",
        f'text "{chance.choice(("", "x", "a b", "long " * 40))}" #{chance.randbytes(number(12)).hex()}',
        f"line {chance.choice(('true', 'false'))}",
        f"little {number(256)}",
        f"list one[0() 1({number(99)})] one:1(-{number(99)})",
    ]
    if is_full:
        choices.append(f'shown {number(9999)}.{number(99)} "it" <one:0() one:1({number(9)})>')
    return "w 0 " + chance.choice(choices)


class Device:
    """A script's table, and what was recorded of it."""

    def __init__(self, name, head, is_full, statements):
        chance = random.Random(f"{seed} {name}")
        script = "\n".join(head + STRINGS + (FLOATS if is_full else []) + [statement(chance, is_full) for _ in range(statements)]).encode()
        self.elf, self.words = f"{work}/{name}.elf", ["--full"] if is_full else []
        with open(self.elf, "wb") as file:
            file.write(answer(["table"], script)[1])
        status, self.recording, said = answer(["record"], script)
        count((status, said) == (0, b"") and self.recording.count(b"\0") >= statements, f"{name}: nothing was recorded, {said}")


# ---- damage


def damage(chance, given):
    """Bytes with one wrong more."""
    begin = chance.randint(0, len(given))
    end = min(len(given), begin + chance.choice((1, 1, 3, 20, len(given) // 2)))
    place = chance.randint(0, len(given))
    zero = given.find(b"\0", begin)
    return chance.choice(
        (
            given[:begin] + chance.randbytes(end - begin) + given[end:],
            given[:begin] + bytes(chance.choice((0, 1, 0x7F, 0xFF)) for _ in range(end - begin)) + given[end:],
            given[:begin] + given[begin:end].replace(b"\0", b"\1") + given[end:],
            given[:begin] + given[end:],
            given[:place] + given[begin:end] + given[place:],
            given[:begin] + bytes(chance.choice((1, 2, 9))) + given[begin:],
            given if zero < 0 else given[:zero] + given[zero + 1 :],
            given[begin:],
            given[:begin],
        )
    )


def copied(device, size):
    """So many bytes of a device's recording, again and again."""
    return (device.recording * (1 + size // len(device.recording)))[:size]


def damaged_here_and_there(chance, given):
    """Bytes with 6 to 60 wrongs, each in some bytes of them, at most 9,000."""
    for _ in range(chance.randint(6, 60)):
        begin = chance.randint(0, len(given))
        end = begin + chance.choice((10, 100, 1000, 9000))
        given = given[:begin] + damage(chance, given[begin:end]) + given[end:]
    return given


def damaged(number):
    """A device, and a part of its recording with some wrongs, sometimes none; of every other number many copies of it, with more wrongs."""
    chance = random.Random(f"{seed} {number}")
    device = chance.choice(devices)
    if number % 2 == 1:
        return chance, device, damaged_here_and_there(chance, copied(device, chance.randint(20_000, 400_000)))
    begin = chance.randrange(len(device.recording))
    given = device.recording[begin : begin + chance.choice((10, 100, 1000, 9000))]
    for _ in range(chance.choice((0, 1, 1, 2, 6))):
        given = damage(chance, given)
    return chance, device, given


# ---- what has to come

STYLES = [[], [], ["--json"], ["--color"], ["--only", "warn"], ["--fail-on", "warn"], ["--json", "--fail-on", "error"]]


def words_of(chance, device):
    """Words of a decoding by chance, without `--jobs`."""
    return ["decode", "--table", device.elf, *device.words, *chance.choice(STYLES), *chance.choice(([], ["--live"]))]


def compare(what, words, jobs, given):
    """Decodes bytes with and without so many threads."""
    due, came = answer(words, given), answer([*words, "--jobs", str(jobs)], given)
    if not due or due != came:
        what = f"{what}, {jobs} threads, {' '.join(words[3:])}: of {given[:2000].hex()} was due {str(due)[:2000]}, and came {str(came)[:2000]}"
    count(due is not None and due == came, what)


def try_large(chance):
    """Recordings of several parts."""
    for device in devices:
        block = copied(device, 400_000)
        whole = block + bytes([chance.randrange(1, 256) for _ in range(9)]) + block * 3
        for jobs in (1, 2, 3, 4, 16, 64):
            compare("a large recording", words_of(chance, device), jobs, whole)
        for shift in chance.sample(range(41), 6):
            given = b"\1" * shift + b"\0" + copied(device, 1 << 20)
            compare(f"a mebibyte behind {shift} bytes and a zero", words_of(chance, device), chance.choice((1, 2, 3)), given)
        piece = (bytes(range(1, 256)) * 9000)[: 2_200_000]
        compare("a long piece", words_of(chance, device), 2, device.recording + piece + device.recording)
        compare("no zero", words_of(chance, device), 2, piece)
        compare("zeros alone", words_of(chance, device), 2, bytes(2_200_000))


def try_closed(chance):
    """Outputs that are closed once some bytes were taken: what came is a front of the whole output, and the fault is the sink's."""
    for device in devices:
        given = copied(device, 3_000_000)
        words = ["decode", "--table", device.elf, *device.words]
        whole = answer(words, given)[1]
        for size in (0, 1, 100_000):
            with open(f"{work}/large", "wb") as file:
                file.write(given)
            line = 'trap "" PIPE; { "$@" < "$0"; echo $? >&2; } | head -c ' + str(size)
            done = subprocess.run(["bash", "-c", line, f"{work}/large", program, *words, "--jobs", "3"], capture_output=True, timeout=60)
            is_front = done.stdout == whole[:size]
            count(is_front and done.stderr.split() == [b"sink", b"4"], f"an output that is closed behind {size} bytes: {done.stderr}, {'a' if is_front else 'no'} front")


# ---- programs that do wrong


def try_wrong_programs():
    """Programs that stand in for the real one, and do wrong where they have many threads, have to be told."""
    global program
    real, wrongs = program, {
        "changes nothing": "cat",
        "loses its second line": "sed 2d",
        "tells its first line twice": "sed 1p",
        "loses a line behind many": "sed 500d",
        "tells a gap behind many lines": "sed '500i -- gap 1'",
        "tells no gap": "sed '/gap/d'",
        "sorts its lines": "sort",
        "ends at the first fault": "sed '/E[0-9]/q'",
    }
    for what, change in wrongs.items():
        with open(f"{work}/wrong", "w", encoding="utf-8") as file:
            file.write(f"#!/bin/bash\n'{real}' \"$@\" > '{work}/right'; status=$?\n[[ \"$*\" != *--jobs* ]] && change=cat || change=\"{change}\"\neval \"$change '{work}/right'\"\nexit $status\n")
        os.chmod(f"{work}/wrong", 0o755)
        told = 0
        for number in range(40):
            chance, device, given = damaged(number)
            words = words_of(chance, device)
            due = answer(words, given)
            program = f"{work}/wrong"
            told += answer([*words, "--jobs", "3"], given) != due
            program = real
        count((told == 0) == (change == "cat"), f"a program that {what}: {told} of 40 answers are told")


devices = [
    Device("plain", [], False, 300),
    Device("stamped", ["stamp 1000 250"], False, 300),
    Device("placed", ["profile 2"], False, 300),
    Device("full", ["language full", "stamp 0 7", "profile 2"], True, 300),
]
for number in range(times):
    chance, device, given = damaged(number)
    compare(f"recording {number}", words_of(chance, device), chance.randint(1, chance.choice((8, 64))), given)
try_large(random.Random(f"{seed} large"))
try_closed(random.Random(f"{seed} closed"))
try_wrong_programs()
print(f"{counts['passed']} passed, {counts['failed']} failed")
sys.exit(1 if counts["failed"] else 0)
