"""A program in C and C++ that logs random values of random kinds, and prints each statement as a line of a script.

    generate.py SEED COUNT

COUNT is the number of its statements. The program is run as PROGRAM SEED FRAMES COUNT: it logs COUNT times, writes the frames to
the file FRAMES and prints the script's lines, in which 'L12' stands for the string of line 12 and so on (compare.py fills them in).
"""
import random
import sys

INTEGERS = {f"{s}{w}": f"{'u' if s == 'u' else ''}int{w}_t" for s in "ui" for w in (8, 16, 32, 64)}
FORMATS = ["point", "line", "state", "shape"]


class Statement:
    def __init__(self, choose):
        self.choose = choose
        self.twice = False  # C takes one parameter more than arguments
        self.text, self.before, self.arguments, self.form, self.values = "", [], [], [], []

    def add(self, before, argument, form, *values):
        self.before.append(before)
        self.arguments.append(argument)
        self.form.append(form)
        self.values.extend(values)

    def integer(self, n, kind):
        narrow = [k for k in INTEGERS if k[0] == kind[0] and int(k[1:]) <= int(kind[1:])]
        type_ = INTEGERS[self.choose.choice(narrow) if self.choose.random() < 0.3 else kind]
        form, cast = ('%" PRIu64 "', "uint64_t") if kind[0] == "u" else ('%" PRId64 "', "int64_t")
        self.add(f"{type_} v{n} = ({type_})any();", f"v{n}", form, f"({cast})v{n}")

    def bits(self, n):
        width = self.choose.choice([8, 16, 32, 64])
        pairs = []
        uses = self.choose.choice([1, 1 if self.twice else 2])
        self.twice = self.twice or uses == 2
        for _ in range(uses):
            low = self.choose.randrange(width)
            pairs.append((low, self.choose.randrange(low + 1, width + 1)))
        self.text += " ".join(f"{{{n}={low}..{high}}}" for low, high in pairs) + " "
        first, last = min(low for low, _ in pairs) // 8, (max(high for _, high in pairs) - 1) // 8
        window = next(w for w in (1, 2, 4, 8) if w >= last - first + 1)
        mask = ((1 << 8 * window) - 1) << 8 * first & (1 << width) - 1
        self.add(f"uint{width}_t v{n} = (uint{width}_t)any();", f"v{n}", '%" PRIu64 "', f"(uint64_t)v{n} & {mask:#x}u")

    def other(self, n, kind):
        which = self.choose.choice(FORMATS)
        some = f"for (uint32_t k = 0; k < n{n}; k++) any_{which}(&a_{which}[{n}][k]);"
        if kind == "u128":
            self.add(f"uint64_t h{n} = any(), l{n} = any();", f"WIDE(h{n}, l{n})", '0x%" PRIx64 "%016" PRIx64 "', f"h{n}, l{n}")
        elif kind == "i128":
            self.add(f"int64_t v{n} = (int64_t)any();", f"WIDE(v{n} < 0 ? -1 : 0, v{n})", '%" PRId64 "', f"v{n}")
        elif kind == "bool":
            self.add(f"bool v{n} = any() & 1;", f"v{n}", "%s", f'v{n} ? "true" : "false"')
        elif kind == "char" and self.choose.random() < 0.5:
            self.add(f"char v{n} = (char)('A' + any() % 26);", f"v{n}", "'%c'", f"v{n}")
        elif kind == "char":
            self.add(f"uint32_t v{n} = (uint32_t)(any() % 0xd000 + 0x20);", f"v{n}", "'\\\\u{%x}'", f"(unsigned)v{n}")
        elif kind == "str":
            self.add(f"const char *v{n} = any_text({n});", f"v{n}", '\\"%s\\"', f"v{n}")
        elif kind == "istr":
            name = f"interned {self.choose.randrange(10 ** 9)}"
            self.add("", f'ISTR("{name}")', f"@[{name.replace(' ', '_')}]")
        elif kind == "[u8]":
            self.add(f"uint32_t n{n} = any_bytes({n});", f"SLICE(bytes[{n}], n{n})", "#%s", f"hex({n}, bytes[{n}], n{n})")
        elif kind.startswith("[u8;"):
            count = kind[4:-1].strip()
            self.add(f"uint8_t v{n}[{count}]; fill(v{n}, {count});", f"v{n}", "#%s", f"hex({n}, v{n}, {count})")
        elif kind == "?":
            self.add(f"any_{which}(&a_{which}[{n}][0]);", f"FMT({which}, &a_{which}[{n}][0])", "%s", f"one_{which}({n}, a_{which}[{n}])")
        else:
            count = "(uint32_t)(any() % 6)" if kind == "[?]" else kind[4:-1].strip()
            self.add(f"uint32_t n{n} = {count}; {some}", f"LIST({which}, a_{which}[{n}], n{n})", "%s", f"list_{which}({n}, a_{which}[{n}], n{n})")

    def argument(self, n):
        kinds = [*INTEGERS, "u128", "i128", "bool", "char", "str", "istr", "[u8]", "[u8; %d]" % self.choose.choice([1, 2, 7, 8, 64, 140]), "?", "[?]",
                 "[?; %d]" % self.choose.randrange(6), "bits", "bits"]
        kind = self.choose.choice(kinds)
        if kind == "bits":
            return self.bits(n)
        self.text += f"{{{n}={kind}}} "
        if kind in INTEGERS:
            self.integer(n, kind)
        else:
            self.other(n, kind)

    def body(self, number):
        count = self.choose.choice([0, 1, 1, 2, 2, 3, 4, 6, 8])
        self.text = self.choose.choice(["", "a ", 'say \\"x\\" ', "back \\\\ ", "{{}} ", "50% "])
        for n in range(count):
            self.argument(n)
        if ".." not in self.text and self.choose.random() < 0.5:
            for n in range(count):
                self.text = self.text.replace(f"{{{n}=", "{=", 1)
        level = self.choose.choice(["TRACE", "DEBUG", "INFO", "WARN", "ERROR", "PRINTLN"])
        arguments = "".join(", " + a for a in self.arguments)
        values = "".join(", " + v for v in self.values)
        return (f"static void statement_{number}(void) {{ {' '.join(self.before)} LOG_{level}(\"{self.text}\"{arguments}); "
                f"printf(\"w 0 L%d {' '.join(self.form)}\\n\", __LINE__{values}); drain(); }}")


def main():
    choose = random.Random(int(sys.argv[1]))
    count = int(sys.argv[2])
    print('#include "defmtl.h"\n#include "values.h"')
    for number in range(count):
        print(Statement(choose).body(number))
    print("static void (*const all[])(void) = {" + ", ".join(f"statement_{k}" for k in range(count)) + "};")
    print("""int main(int words, char **word) {
    if (words != 4) return 2;
    random_state = strtoull(word[1], NULL, 10) * 2 + 1;
    frames = fopen(word[2], "wb");
    uint32_t n = (uint32_t)strtoul(word[3], NULL, 10);
    if (!frames) return 2;
    defmtl_init(DEFMTL_MODE_SKIP);
    for (uint32_t k = 0; k < n; k++) all[k % (sizeof all / sizeof all[0])]();
    fprintf(stderr, "%u", (unsigned)defmtl_dropped(0));
    return fclose(frames);
}""")


main()
