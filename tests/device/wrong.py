"""Wrong bodies of the device's core, for tests/device-proof.sh.

    wrong.py FOLDER ROUND   writes the core's two files of FOLDER into this one, with the wrong bodies of that round, from 0: at most one a
                            function, since each function is proved by itself
    wrong.py list ROUND     a line each of that round: the function, what is wrong. A round that isn't there has none.
"""
import sys

WRONG = [
    ("defmtl_bytes", "a slice of any length is added", "DEFMTL_ONCE void defmtl_bytes(struct defmtl_frame *f, const uint8_t *from, uint32_t n) {\n    if (!defmtl_fits(f, n)) return;",
     "DEFMTL_ONCE void defmtl_bytes(struct defmtl_frame *f, const uint8_t *from, uint32_t n) {"),
    ("defmtl_fits", "a message may have one byte too many", "n <= DEFMTL_MESSAGE - f->numbers.done)", "n <= DEFMTL_MESSAGE - f->numbers.done + 1)"),
    ("defmtl_close_block", "a block's zeros go on into the next one", "    n->gathered = 0;\n    n->zeros = 0;\n}", "    n->gathered = 0;\n}"),
    ("defmtl_add", "a block without a zero has 135 bytes", "n->gathered == 134)", "n->gathered == 135)"),
    ("defmtl_add", "a zero behind seven bytes ends no block", "n->gathered < 7) {", "n->gathered < 8) {"),
    ("defmtl_add", "seven bytes without a zero end with one", "n->gathered == 7 && n->zeros != 0)", "n->gathered == 7)"),
    ("all", "a frame's memory is one byte too short", "DEFMTL_MESSAGE / 134 + 3)", "DEFMTL_MESSAGE / 134 + 2)"),
    ("defmtl_frame_end", "a frame ends without its zero", "    f->code[n->stored++] = 0;\n    return n->stored;", "    return n->stored;"),
    ("defmtl_word", "a number has one byte more", "for (uint32_t k = 0; k < n; k++) {\n        defmtl_add", "for (uint32_t k = 0; k <= n; k++) {\n        defmtl_add"),
    ("defmtl_counted", "a text's length is sent in two bytes", "defmtl_word(f, n, 4);\n    defmtl_bytes", "defmtl_word(f, n, 2);\n    defmtl_bytes"),
    ("defmtl_length", "a text without an end is read on", "while (n <= DEFMTL_MESSAGE && text[n] != 0) n++;", "while (text[n] != 0) n++;"),
    ("defmtl_chosen", "a variant that isn't there is sent", "if (variant < variants)", "if (variant <= variants)"),
    ("defmtl_behind", "an offset stands behind the ring's last byte", "n < size - offset ?", "n <= size - offset ?"),
    ("defmtl_room", "a read offset out of range is trusted", "    if (read >= size) return 0;\n", ""),
    ("defmtl_room", "a full ring looks like an empty one", "size - write + read) - 1;", "size - write + read);"),
    ("defmtl_put", "bytes are copied past the ring's end", "uint32_t first = n < size - write ? n : size - write;", "uint32_t first = n;"),
    ("defmtl_put", "behind the ring's end the first bytes come again", "defmtl_copy(ring, from + first, n - first);", "defmtl_copy(ring, from, n - first);"),
    ("defmtl_share", "a frame longer than the ring is waited for", "mode == DEFMTL_MODE_BLOCK && n < size ?", "mode == DEFMTL_MODE_BLOCK ?"),
    ("defmtl_commit", "a frame that was cut isn't counted as dropped", "if (n == 0 || sent < n)", "if (n == 0)"),
    ("defmtl_commit", "a message that waits is counted", "        if (may_wait) return 0;\n        sent = 0;\n    }\n    up->messages++;", "        up->messages++;\n        if (may_wait) return 0;\n        sent = 0;\n    }\n    else up->messages++;"),
    ("defmtl_take", "bytes that were taken are taken again", "    *read = defmtl_get(ring, size, at, to, n);", "    *read = at;\n    (void)defmtl_get(ring, size, at, to, n);"),
]

what, number = sys.argv[1:]
rounds = []
for row in WRONG:
    place = next((it for it in rounds if row[0] not in [other[0] for other in it] and row[0] != "all" and it[0][0] != "all"), None)
    if place is None:
        rounds.append(place := [])
    place.append(row)
chosen = rounds[int(number)] if int(number) < len(rounds) else []
if what == "list":
    for function, words, _, _ in chosen:
        print(f"{function}\t{words}")
else:
    texts = {}
    for name in ("defmtl_core.h", "defmtl_ring.h"):
        with open(f"{what}/{name}") as it:
            texts[name] = it.read()
    for _, words, right, instead in chosen:
        if sum(text.count(right) for text in texts.values()) != 1:
            sys.exit(f"{words}: its text doesn't stand once")
        texts = {name: text.replace(right, instead) for name, text in texts.items()}
    for name, text in texts.items():
        with open(name, "w") as it:
            it.write(text)
