"""The unproved program: `rt try` makes it, by a copy of the kit that is the same but for its linker."""

import os
import shutil

# `rt try` would run the program that it made once and throw it away: this linker keeps it.
LINKER = """#!/bin/bash
'{0}/toolchain/bin/ld.lld' "$@" || exit
while [ $# -gt 1 ]; do [ "$1" != -o ] || cp "$2" '{1}'; shift; done
"""


def copy_kit(kit, copy, program):
    """Links to all of the kit but its rt, which is copied since it looks for the rest beside itself, and its linker."""
    for folder, but in ("", ["bin", "toolchain"]), ("/bin", ["rt", "rtlib.py"]), ("/toolchain", ["bin"]), ("/toolchain/bin", ["ld.lld"]):
        os.mkdir(copy + folder)
        for it in {*os.listdir(kit + folder)} - {*but}:
            os.symlink(f"{kit}{folder}/{it}", f"{copy}{folder}/{it}")
    for it in ("rt", "rtlib.py"):
        shutil.copy(f"{kit}/bin/{it}", f"{copy}/bin")
    with open(f"{copy}/toolchain/bin/ld.lld", "w", encoding="utf-8") as it:
        it.write(LINKER.format(kit, program))
    os.chmod(f"{copy}/toolchain/bin/ld.lld", 0o755)
