"""The frames of a generated program against those of `record` for the same statements.

    compare.py DEFMTL PROGRAM PROFILE SEED COUNT

The script's strings are the program's own, taken from its symbols, each under its index. It prints 'same N statements, B bytes, longest
frame L' and ends with status 0, or tells what differs.
"""
import json
import re
import subprocess
import sys
import tempfile

TYPES = {"Point {{": "point", "Idle|Mo": "state", "{=?} to": "line", "Dot|Rin": "shape"}


def main():
    defmtl, program, profile, seed, count = sys.argv[1:]
    entries = []
    for line in subprocess.run(["nm", program], capture_output=True, text=True, check=True).stdout.split("\n"):
        found = re.match(r"([0-9a-f]+) . (\{.*\})$", line)
        if found:
            entries.append((int(found[1], 16), json.loads(found[2])))
    entries.sort(key=lambda it: it[0])
    if [at for at, _ in entries] != list(range(1, len(entries) + 1)) or entries[-1][1]["tag"] != "defmt_timestamp":
        sys.exit("the indexes aren't 1, 2 and so on with the stamp's at the end")
    lines, types, texts, strings = {}, {}, {}, []
    for at, it in entries[:-1]:
        strings.append(f"s N{at} {it['tag']} {it['data']}")
        if it["tag"] == "defmt_derived":
            types[next(name for front, name in TYPES.items() if it["data"].startswith(front[:7]))] = f"N{at}"
        elif it["tag"] == "defmt_str":
            texts[it["data"].replace(" ", "_")] = f"N{at}"
        else:
            lines[it["line"]] = f"N{at}"
    with tempfile.NamedTemporaryFile() as frames:
        run = subprocess.run([program, seed, frames.name, count], capture_output=True, text=True)
        got = frames.read()
    if run.returncode != 0 or run.stderr != "0":
        sys.exit(f"the program ended with {run.returncode} and said {run.stderr[:2000]}")
    said = re.sub(r"(?m)^w 0 L(\d+)", lambda it: "w 0 " + lines[int(it[1])], run.stdout)
    said = re.sub(r"(?<= )@\[([a-z0-9_]+)\]", lambda it: "@" + texts[it[1]], said)
    said = re.sub(r"(?<=[ (])F(point|line|state|shape)(?=[:(\[])", lambda it: types[it[1]], said)
    head = ["ring 4096", "mode block", "reader live", "stamp 1000 250"] + (["profile 2"] if profile == "2" else [])
    script = "\n".join(head + strings) + "\n" + said
    due = subprocess.run([defmtl, "record"], input=script.encode(), capture_output=True)
    if due.returncode != 0:
        sys.exit(f"record ended with {due.returncode}: {due.stderr.decode()[:300]}")
    if due.stdout != got or not got:
        at = next((k for k, (a, b) in enumerate(zip(due.stdout, got)) if a != b), min(len(due.stdout), len(got)))
        sys.exit(f"other bytes from {at} on: due {due.stdout[at:at + 20].hex()}, got {got[at:at + 20].hex()} (of {len(due.stdout)} and {len(got)})")
    print(f"same {count} statements, {len(got)} bytes, longest frame {max(map(len, got.split(bytes(1)))) + 2}")


main()
