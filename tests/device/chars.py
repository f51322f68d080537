"""A program that logs each printable character of ASCII, escapes and some others in a text, and the lines that are due.

    chars.py PROGRAM_FILE LINES_FILE
"""
import sys

names = {"@": "\\u0040", '"': '\\"', "\\": "\\\\", "{": "{{", "}": "}}"}
shown = [chr(c) for c in range(0x20, 0x7f)] + ["°", "é", "😀"]
with open(sys.argv[1], "w") as program, open(sys.argv[2], "w") as lines:
    print('#include "host.h"\nstatic void all(void) {', file=program)
    for c in shown:
        print(f'    LOG_PRINTLN("<{names.get(c, c)}>");', file=program)
        print(f"<{c}>", file=lines)
    print('    LOG_PRINTLN("tab \\t, say \\"hi\\", a\\\\b, {=str:?}", "q\\"q");\n}\nRUN(all)', file=program)
    print('tab \t, say "hi", a\\b, "q\\"q"', file=lines)
