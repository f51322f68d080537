"""Statements that a compiler has to take without a warning, and statements that it has to refuse with the message that is due.

    refuse.py FOLDER NAME LANGUAGE COMPILER WORD..

FOLDER is that of defmtl.h, NAME says which compiler and level it is, LANGUAGE is c or cc. Each statement stands on a line of its
own; of a wrong one the first message of defmtl on its line is judged. It prints 'ok: ..' or 'FAILED: ..' lines.
"""
import re
import subprocess
import sys
import tempfile

TOLD = {
    "N": "differ in number",
    "K": "is of another kind",
    "T": "is no format string",
    "S": "one plain literal",
    "M": "at most eight arguments",
    "V": "variants and the lists",
    "E": "text of an enum",
    "I": "ISTR takes one plain literal",
}
# The message that is due, or + for none; with a letter behind a slash for C alone; and the statement.
STATEMENTS = r'''
+ LOG_INFO("x {=u8}", u8);
N LOG_INFO("x {=u8}");
N LOG_INFO("x", u8);
N LOG_INFO("x {=u8} {=u8}", u8);
N LOG_INFO("x {=u8}", u8, u8);
N LOG_INFO("x {{=u8}}", u8);
N LOG_INFO("x {1=u8}", u8);
N LOG_INFO("{=u8} {=u8} {=u8} {=u8}", u8, u8, u8);
+ LOG_INFO("x {0=u8} {0=u8:x}", u8);
+ LOG_INFO("{1=u8} {0=u16}", u16, u8);
+ LOG_INFO("{=u8} {0=u8} {=u16}", u8, u16);
K LOG_INFO("{1=u8} {0=u16}", u8, u16);
K LOG_INFO("x {=u8}", u32);
K LOG_INFO("{=u32} {=u32} {=u8}", u32, u32, u32);
K LOG_INFO("x {=u8}", 256);
+ LOG_INFO("x {=u8}", 255);
K LOG_INFO("x {=u8}", -1);
K LOG_INFO("x {=i8}", 128);
+ LOG_INFO("x {=i8}", -128);
+ LOG_INFO("x {=u16} {=i16} {=u32} {=i32}", 65535, -32768, 4294967295u, -2147483647);
K LOG_INFO("x {=u16}", 65536);
K LOG_INFO("x {=i16}", 32768);
K LOG_INFO("x {=u32}", 4294967296LL);
K LOG_INFO("x {=i32}", 2147483648LL);
K LOG_INFO("x {=u64}", -1);
+ LOG_INFO("x {=u64} {=i64}", 1u, -1);
K LOG_INFO("x {=u8}", u8 + 1);
+ LOG_INFO("x {=i32}", u8 + 1);
+ LOG_INFO("x {=u8}", (uint8_t)(u8 + 1));
+ LOG_INFO("x {=u64}", u8);
+ LOG_INFO("x {=i16}", u8);
K LOG_INFO("x {=i8}", u8);
K LOG_INFO("x {=u16}", i8);
K LOG_INFO("x {=u32}", i32);
K LOG_INFO("x {=i32}", u32);
+ LOG_INFO("x {=usize} {=isize}", u32, i32);
K LOG_INFO("x {=usize}", u64);
K LOG_INFO("x {=str}", u8);
K LOG_INFO("x {=u32}", "text");
+ LOG_INFO("x {=str} {=str:?}", text, "text");
K LOG_INFO("x {=str}", bytes);
K LOG_INFO("x {=[u8; 4]}", text);
+ LOG_INFO("x {=[u8; 4]} {=[u8;4]:02x} {=[u8]:a}", bytes, bytes, bytes);
K LOG_INFO("x {=[u8; 5]}", bytes);
K LOG_INFO("x {=[u8; 40]}", bytes);
+ LOG_INFO("x {=[u8; 140]}", many);
K LOG_INFO("x {=[u8; 141]}", many);
K LOG_INFO("x {=[u8; 4]}", pointer);
K LOG_INFO("x {=[u8]}", pointer);
+ LOG_INFO("x {=[u8]}", SLICE(pointer, 3));
K LOG_INFO("x {=u32}", pointer);
K LOG_INFO("x {=u32}", anything);
K LOG_INFO("x {=str}", anything);
+ LOG_INFO("x {=bool} {=bool}", u8 > 3, true);
K LOG_INFO("x {=bool}", u32);
+ LOG_INFO("x {=char} {=char}", 'c', (char)u8);
K LOG_INFO("x {=char}", 0x110000);
K LOG_INFO("x {=f32}", u8);
+ LOG_INFO("x {=f32} {=f64} {=f64}", 1.5f, 2.5, 1.5f);
K LOG_INFO("x {=f32}", 2.5);
K LOG_INFO("x {=u32}", 1.5f);
T LOG_INFO("x {=u9}", u8);
K LOG_INFO("x {=u128}", u64);
K LOG_INFO("x {=i128}", 5);
K LOG_INFO("x {=u64}", WIDE(0, 5));
+ LOG_INFO("x {=u128} {=i128:x} {=u128:#06b} {=i128}", WIDE(1, 2), WIDE(-1, -1), WIDE(u64, u64), WIDE(0, u8));
T LOG_INFO("x {=u12}", u64);
T LOG_INFO("x {=u1288}", u64);
T LOG_INFO("x {=i12 }", u64);
T LOG_INFO("x {=u}", u8);
T LOG_INFO("x {=u88}", u8);
T LOG_INFO("x {=boolean}", true);
T LOG_INFO("x {=}", u8);
T LOG_INFO("x {u8}", u8);
T LOG_INFO("x {=[u8}", bytes);
T LOG_INFO("x {=[u8; ]}", bytes);
T LOG_INFO("x {=[u16]}", bytes);
T LOG_INFO("x {=u8", u8);
T LOG_INFO("x } y");
T LOG_INFO("x {=u8}}", u8);
T LOG_INFO("{0=u8} {0=u16}", u8);
T LOG_INFO("x {=u8:z}", u8);
T LOG_INFO("x {=u8:0x}", u8);
T LOG_INFO("x {=u8:x8}", u8);
T LOG_INFO("x {=u8:us2}", u8);
+ LOG_INFO("{=u32:iso8601s} {=u64:iso8601ms}", u32, u64);
+ LOG_INFO("{=u32:ts} {=u32:tms} {=u64:tus} {0=u32:ts}", u32, u32, u64);
+ LOG_INFO("{=u32:08} {=i16:05} {=u8:0255} {=u8:03}", u32, i16, u8, u8);
+ LOG_INFO("{=u8:0100x} {=u8:#0255b} {0=u8:09o}", u8, u8);
+ LOG_INFO("{=0..4:02} {=4..8:ms} {=[u8]:03} {:tus}", u8, u8, bytes, FMT(point, &a_point));
T LOG_INFO("x {=u32:iso8601}", u32);
T LOG_INFO("x {=u32:iso8601us}", u32);
T LOG_INFO("x {=u32:iso8601x}", u32);
T LOG_INFO("x {=u32:iso8601ts}", u32);
T LOG_INFO("x {=u32:#iso8601s}", u32);
T LOG_INFO("x {=u32:08iso8601s}", u32);
T LOG_INFO("x {=u32:t}", u32);
T LOG_INFO("x {=u32:s}", u32);
T LOG_INFO("x {=u32:tns}", u32);
T LOG_INFO("x {=u32:tmss}", u32);
T LOG_INFO("x {=u32:08ts}", u32);
T LOG_INFO("x {=u32:#ts}", u32);
T LOG_INFO("x {=u32:8}", u32);
T LOG_INFO("x {=u32:0}", u32);
T LOG_INFO("x {=u32:00}", u32);
T LOG_INFO("x {=u32:008}", u32);
T LOG_INFO("x {=u32:0256}", u32);
T LOG_INFO("x {=u32:01000}", u32);
T LOG_INFO("x {=u32:#08}", u32);
T LOG_INFO("x {=u32:#}", u32);
T LOG_INFO("x {=u32:08?}", u32);
T LOG_INFO("x {=u32:08a}", u32);
T LOG_INFO("x {=u3208}", u32);
T LOG_INFO("x {=u32ts}", u32);
T LOG_INFO("x {=u32:00x}", u32);
T LOG_INFO("x {=u32:0256x}", u32);
T LOG_INFO("x {=u32:04 }", u32);
T LOG_INFO("x {=u32: }", u32);
T LOG_INFO("x {=u32:", u32);
T LOG_INFO("x {=u32:08", u32);
T LOG_INFO("x {=[u8 ]}", bytes);
T LOG_INFO("x {=[u8 4]}", bytes);
T LOG_INFO("x {[]}", FMT(point, &a_point));
T LOG_INFO("x {[u8]}", bytes);
T LOG_INFO("x {00..4}", u8);
T LOG_INFO("x {=0.4}", u8);
T LOG_INFO("x {=0..100}", u64);
T LOG_INFO("x {=[u8; 4}", bytes);
T LOG_INFO("x {=[?; 4x]}", bytes);
T LOG_INFO("x {={=u8}", u8);
T LOG_INFO("x }");
T LOG_INFO("x {");
T LOG_INFO("x {{}");
T LOG_INFO("x {=u8} }", u8);
T LOG_INFO("x {=u8} {", u8);
+ LOG_INFO("{0=0..1} {0=1..4} {0=4..8:#b} {0=0..8:#04x}", u8);
+ LOG_INFO("{0=u8} {0=u8:x} {0=u8:b} {0=u8:o}", u8);
T LOG_INFO("x {=4..4}", u8);
T LOG_INFO("x {=0..65}", u64);
T LOG_INFO("x {=0..}", u64);
+ LOG_INFO("{=u8:?} {=u8:x} {=u8:#x} {=u8:04X} {=u8:#010b} {=u8:o} {=u8:}", u8, u8, u8, u8, u8, u8, u8);
+ LOG_INFO("{=u32:us} {=u32:ms} {=[u8]:a}", u32, u32, bytes);
+ LOG_INFO("{{}} {{ }} {=u8} {{}}", u8);
+ LOG_INFO("{{\"a\":{=u8},\"b\":{{\"c\":{=u8}}}}}", u8, u8);
+ LOG_INFO("{0=0..4} {0=8..12}", u16);
K LOG_INFO("{0=0..4} {0=8..12}", u8);
+ LOG_INFO("{=8..64} {=0..1}", u64, 1);
K LOG_INFO("{=0..4}", i32);
K LOG_INFO("{=?}", u8);
+ LOG_INFO("{=?} {} {:x}", FMT(point, &a_point), FMT(point, &a_point), FMT(state, &a_state));
K LOG_INFO("{=[?]}", FMT(point, &a_point));
+ LOG_INFO("{=[?]} {=[?; 1]}", LIST(point, &a_point, 1), LIST(point, &a_point, 1));
+ LOG_INFO("{=[u8]} {=[u8]}", SLICE(text, 3), SLICE(anything, 3));
K LOG_INFO("{=[u8]}", SLICE(&u16, 1));
K LOG_INFO("{=[u8]}", SLICE(u32s, 3));
K LOG_INFO("{=?}", FMT(point, &u32));
K LOG_INFO("{=?}", FMT(point, &a_pair));
K LOG_INFO("{=?}", FMT(point, &a_state));
K LOG_INFO("{=?}", FMT(state, &u64));
K LOG_INFO("{=?}", FMT(point, anything));
K LOG_INFO("{=u8} {=[?]}", u8, LIST(point, u32s, 2));
K LOG_INFO("{=[?]}", LIST(point, &a_pair, 1));
+ LOG_INFO("{=[?]} {=?} {=?}", LIST(number, u32s, 2), FMT(number, u32s), FMT(number, &u32));
+ volatile struct point v = {1, 2}; LOG_INFO("{=?}", FMT(point, &v));
+ struct point *p = &a_point; LOG_INFO("{=?} {=[?]}", FMT(point, p), LIST(point, p, 1));
K LOG_INFO("{}", u8);
K LOG_INFO("{:x}", u8);
+ LOG_INFO("{=istr}", ISTR("text"));
+ LOG_INFO("{=istr} {=istr}", ISTR(""), ISTR("q \" \\ \n \t end"));
+ LOG_INFO("{=istr}", u8 ? ISTR("text") : ISTR("other"));
I LOG_INFO("{=istr}", ISTR(text));
I LOG_INFO("{=istr}", ISTR("a" "b"));
I LOG_INFO("{=istr}", ISTR("a@b"));
K LOG_INFO("x {=istr}", "text");
S LOG_INFO("x " "y");
S LOG_INFO("x""y");
S LOG_INFO("mail@x");
+ LOG_INFO("mail\u0040x");
S LOG_INFO("\x41");
S LOG_INFO("\a");
S LOG_INFO("\101");
S LOG_INFO("\'");
S LOG_INFO(u8"x");
+ LOG_INFO("q \" \\ \n \t end\"");
+ LOG_INFO("");
+ LOG_INFO("%d %s ; # $ & 'quoted' <b> ~ ^ ` | / ? ! , . : * + - = ( ) [ ] _");
+ volatile uint8_t v = 3; LOG_INFO("x {=u8}", v);
+ const uint8_t c = 3; LOG_INFO("x {=u8}", c);
+ LOG_INFO("a"); LOG_INFO("b"); LOG_WARN("a {=u8}", u8); LOG_WARN("a {=u8}", u8);
+ for (uint8_t k = 0; k < 3; k++) if (k) LOG_INFO("{=u8}", k); else LOG_WARN("zero");
+ TWICE(LOG_DEBUG("in a macro {=u32}", u32));
+ LOG_TRACE("a"); LOG_DEBUG("a"); LOG_ERROR("a"); LOG_PRINTLN("a {=u8}", u8);
+ LOG_INFO("{=u8} {=u8} {=u8} {=u8} {=u8} {=u8} {=u8} {=u8}", 1, 2, 3, 4, 5, 6, 7, 8);
M LOG_INFO("{=u8}", 1, 2, 3, 4, 5, 6, 7, 8, 9);
M LOG_INFO("{=u8}", 1, 2, 3, 4, 5, 6, 7, 8, 9, 10, 11, 12, 13, 14, 15, 16, 17);
M LOG_INFO("{=u8}", u8, u8, u8, u8, u8, u8, u8, u8, u8, u8, u8, u8, u8, u8, u8, u8, u8, u8, u8, u8, u8, u8, u8, u8, u8, u8, u8, u8, u8, u8, u8, u8, u8, u8, u8, u8, u8, u8, u8, u8, u8);
'''
# Declarations, each outside of functions.
DECLARATIONS = r'''
+ DEFMTL_FORMAT(struct pair, pair1, "{=u8} {=u8}", self->a, self->b)
N DEFMTL_FORMAT(struct pair, pair2, "{=u8}", self->a, self->b)
K DEFMTL_FORMAT(struct pair, pair3, "{=u8} {=str}", self->a, self->b)
T DEFMTL_FORMAT(struct pair, pair4, "a|b {=u8}", self->a)
S DEFMTL_FORMAT(struct pair, pair5, "a@{=u8}", self->a)
M DEFMTL_FORMAT(struct pair, pair6, "{=u8}", 1, 2, 3, 4, 5, 6, 7, 8, 9)
K DEFMTL_FORMAT(struct pair, pair7, "{=?}", FMT(point, &self->a))
M DEFMTL_UNION(struct pair, union5, self->a, "Dot|Ring({=u8})", (), (1, 2, 3, 4, 5, 6, 7, 8, 9))
E DEFMTL_ENUM(enum state, state1, "One")
E DEFMTL_ENUM(enum state, state2, "One|{=u8}")
+ DEFMTL_ENUM(enum state, state3, "One|Two|Three|Four|Five|Six|Seven|Eight|Nine|Ten")
+ DEFMTL_UNION(struct pair, union1, self->a, "Dot|Ring({=u8})|Box({=u8}, {=u8})", (), (self->b), (self->a, self->b))
V DEFMTL_UNION(struct pair, union2, self->a, "Dot|Ring({=u8})", (self->b))
N DEFMTL_UNION(struct pair, union3, self->a, "Dot|Ring({=u8})", (), ())
K DEFMTL_UNION(struct pair, union4, self->a, "Dot|Ring({=str})", (), (self->b))
'''
HEAD = r'''#include "defmtl.h"
extern uint8_t u8, bytes[4], many[140]; extern uint16_t u16; extern uint32_t u32; extern uint64_t u64; extern int8_t i8; extern int16_t i16; extern int32_t i32;
extern uint32_t u32s[4]; extern const char *text; extern const uint8_t *pointer; extern const void *anything;
struct point { int16_t x, y; }; enum state { one, two }; struct pair { uint8_t a, b; };
extern struct point a_point; extern enum state a_state; extern struct pair a_pair;
DEFMTL_FORMAT(uint32_t, number, "{=u32}", *self)
DEFMTL_FORMAT(struct point, point, "Point {{ x: {=i16}, y: {=i16} }}", self->x, self->y)
DEFMTL_ENUM(enum state, state, "One|Two")
#define TWICE(x) do { x; x; } while (0)
'''


def cases(text):
    return [tuple(line.split(" ", 1)) for line in text.strip().split("\n")]


def main():
    folder, name, language, *compiler = sys.argv[1:]
    good, bad = [HEAD.rstrip("\n")], [HEAD.rstrip("\n")]
    due = {}
    for k, (letter, text) in enumerate(cases(STATEMENTS)):
        line = f"void f{k}(void); void f{k}(void) {{ {text} }}"
        if letter == "+":
            good.append(line)
        else:
            bad.append(line)
            due["\n".join(bad).count("\n") + 1] = (letter, text)
    for letter, text in cases(DECLARATIONS):
        if letter == "+":
            good.append(f"{text} const void *use_{len(good)}(void); const void *use_{len(good)}(void) {{ return &{text.split(',')[1].strip()}_defmtl; }}")
        else:
            bad.append(text)
            due["\n".join(bad).count("\n") + 1] = (letter, text)
    with tempfile.TemporaryDirectory() as work:
        warn = ["-Wall", "-Wextra", "-Wconversion", "-Wpedantic", "-Werror"]
        for which, lines in (("good", good), ("bad", bad)):
            with open(f"{work}/{which}.{language}", "w") as it:
                it.write("\n".join(lines) + "\n")
        run = lambda which, *words: subprocess.run(
            [*compiler, *words, f"-I{folder}", "-c", f"{which}.{language}", "-o", "out.o"], cwd=work, capture_output=True, text=True)
        taken = run("good", *warn)
        if taken.returncode == 0:
            print(f"ok: {name}: {len(good) - HEAD.count(chr(10))} right statements are taken without a warning")
        else:
            print(f"FAILED: {name}: right statements are taken without a warning")
            print("\n".join(line for line in taken.stderr.split("\n") if "error" in line)[:1500])
        said = {}
        short = ["-fno-caret-diagnostics", "-ferror-limit=0", "-fmacro-backtrace-limit=1"] if "clang" in compiler[0] else ["-fno-diagnostics-show-caret"]
        refused = run("bad", "-w", *short)
        for line in refused.stderr.split("\n"):
            found = re.match(rf"bad\.{language}:(\d+):.*error:.*(defmtl: .*)", line)
            if found:
                said.setdefault(int(found[1]), found[2])
        wrong = [(text, said.get(at, "nothing")) for at, (letter, text) in due.items() if TOLD[letter] not in said.get(at, "")]
        if wrong:
            print(f"FAILED: {name}: wrong statements are refused with the message that is due")
            for text, got in wrong[:12]:
                print(f"    {text}\n        said: {got}")
        else:
            print(f"ok: {name}: {len(due)} wrong statements are refused with the message that is due")


main()
