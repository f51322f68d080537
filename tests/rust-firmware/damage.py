"""Damages one frame of a recording after the other, and asks that all others give their lines as before.

    damage.py PROGRAM FILE RECORDING LINES TIMES

LINES are those of the whole recording. The last line is 'N passed, M failed'.
"""
import random
import subprocess
import sys

program, file, recording, lines, times = sys.argv[1:]
with open(recording, "rb") as it:
    codes = [code for code in it.read().split(b"\0") if code]
with open(lines, encoding="utf-8") as it:
    due = it.read().split("\n")[:-1]
chance = random.Random(5)
passed = failed = 0


def damaged(code):
    """The code with a byte changed, taken out or put in; none of them is zero."""
    at, byte = chance.randrange(len(code)), bytes([chance.randrange(1, 256)])
    return chance.choice([code[:at] + byte + code[at + 1:], code[:at] + code[at + 1:], code[:at] + byte + code[at:]]) or byte


if len(codes) != len(due):
    sys.exit(f"{len(codes)} frames and {len(due)} lines\n0 passed, 1 failed")
for _ in range(int(times)):
    at = chance.randrange(len(codes))
    changed = codes[:at] + [damaged(codes[at])] + codes[at + 1:]
    ran = subprocess.run([program, "decode", "--full", "--table", file], input=b"".join(b"\0" + code + b"\0" for code in changed), capture_output=True)
    got = ran.stdout.decode("utf-8").split("\n")[:-1]
    if ran.returncode in (0, 9) and got[:at] == due[:at] and got[len(got) - len(due) + at + 1:] == due[at + 1:] and len(got) >= len(due):
        passed += 1
    else:
        failed += 1
        print(f"FAILED: frame {at} as {changed[at].hex()}: status {ran.returncode}, {ran.stderr.decode('utf-8').strip()}")
print(f"{passed} passed, {failed} failed")
