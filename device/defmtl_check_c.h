/* The checks in C11. Included by defmtl.h alone.
 *
 * C has no functions at compile time, but GCC folds a few functions of string literals at each level of optimization, and takes
 * what it folds for an enumerator; Clang folds the characters themselves. So the variables of this reader are enumerators, and a
 * loop is a macro that stands several times: each step opens a block, whose enumerators hide those of the step before. What a step
 * reads of the step before stands in front of its own enumerator of that name. Places count bytes of the text; none passes its end. */

/* ---- what is asked of a text at a place. The reader reads the text t with these bytes behind it, so that no look is past the end: one
 * that no text has, and then what is searched for. */
#define DEFMTL_PADDED(t) t "\1}{|"

#ifdef __clang__
#define DEFMTL_AT(t, p) t[p]
/* a byte of a step stands between these: a macro with parameters would take longer to compile */
#define DEFMTL_BYTE
#define DEFMTL_END
/* the place of the next byte c; size is that of t */
#define DEFMTL_FIND(t, size, c, p) size - __builtin_strlen(__builtin_strchr(&t[p], c))
#define DEFMTL_NEXT(t, c, s, p) (int)(DEFMTL_FIND(t s, sizeof(t), c, p))
#define DEFMTL_FIND_BRACES(t, to, p)                                                                                   \
    to##_1 = DEFMTL_FIND(t, defmtl_size, '{', p), to##_2 = DEFMTL_FIND(t, defmtl_size, '}', p), to = to##_1 < to##_2 ? to##_1 : to##_2,
#define DEFMTL_FIND_BARS(t, to, p)                                                                                     \
    DEFMTL_FIND_BRACES(t, to##_3, p) to##_4 = DEFMTL_FIND(t, defmtl_size, '|', p), to = to##_3 < to##_4 ? to##_3 : to##_4,
#define DEFMTL_PAIRS_BRACES(t, p) (t[p] == t[p + 1]) * 2
#define DEFMTL_PAIRS_BARS(t, p) (t[p] == t[p + 1] && t[p] != '|') * 2
#define DEFMTL_OPENS(t, p) (t[p] == '{' && t[p + 1] != '{')
#define DEFMTL_WITHOUT(s, c) !__builtin_strchr(s, *c)
#else
#define DEFMTL_AT(t, p) __builtin_strncmp(&t[p], "", 1)
#define DEFMTL_BYTE __builtin_strncmp(&
#define DEFMTL_END , "", 1)
#define DEFMTL_NEXT(t, c, s, p) p + (int)__builtin_strcspn(&t[p], s)
#define DEFMTL_FIND_BRACES(t, to, p) to = p + (int)__builtin_strcspn(&t[p], "{}"),
#define DEFMTL_FIND_BARS(t, to, p) to = p + (int)__builtin_strcspn(&t[p], "{}|"),
#define DEFMTL_PAIRS_BRACES(t, p) ((int)__builtin_strspn(&t[p], "{") & -2) + ((int)__builtin_strspn(&t[p], "}") & -2)
#define DEFMTL_PAIRS_BARS(t, p) DEFMTL_PAIRS_BRACES(t, p)
#define DEFMTL_OPENS(t, p) __builtin_strspn(&t[p], "{") == 1
#define DEFMTL_WITHOUT(s, c) __builtin_strcspn(s, c) == sizeof(s) - 1
#endif
#define DEFMTL_LIKE(t, p, word, n) !__builtin_strncmp(&t[p], word, n)

/* Words of kinds, five bytes each; which of them stands at three bytes, if any does: by (first + 19 * second) % 30, and the third one's
 * bit 2; how long each is; and its kind, and then the kind of a list of it or 0. */
#define DEFMTL_WORDS                                                                                                   \
    "     bool char f32  f64  i16  i32  i64  i8   isizestr  u16  u32  u64  u8   usizeistr ?    u128 i128 "
#define DEFMTL_WORD_OF                                                                                                 \
    "\21\0\0\0\0\2\14\0\21\12\11\16\0\0\21\0\23\0\0\0\0\3\17\0\6\21\0\0\22\10\21\0\0\15\0\0\0\0\21\0\20\16\0\0\21\0\5\1\4\0\0\7\0\0\0\21\0\0\13\10"
#define DEFMTL_WORD_LENGTH "\0\4\4\3\3\3\3\3\2\5\3\3\3\3\2\5\4\1\4\4"
#define DEFMTL_WORD_KIND "\0\1\2\3\4\5\6\7\10\6\12\13\14\15\16\14\20\21\30\32\0\0\0\0\0\0\0\0\0\0\0\0\0\0\24\0\0\22\0\0"

/* Words of hints, three bytes each, the word of two bytes at the place (first + 19 * second) % 20, and how long each is; iso8601s and
 * iso8601ms are iso8601 and a word. Which of them may stand alone, behind iso8601, behind a width, and behind a number sign: a bit each,
 * and bit 0 for none. */
#define DEFMTL_HINTS "   ts us X        o  tms      s     a  b  ms x        ?  tus"
#define DEFMTL_HINT_LENGTH "\1\2\2\1\1\1\1\3\1\1\1\1\1\1\2\1\1\1\1\3"
#define DEFMTL_HINTS_ALONE 0xcf0cf
#define DEFMTL_HINTS_ISO 0x4400
#define DEFMTL_HINTS_WIDE 0xa049
#define DEFMTL_HINTS_SIGN 0xa048

/* ---- the reader. From the place q of the step before:
 * p the next brace that isn't doubled, v whether it opens a parameter; s its position and n whether one stands there, o the position, i
 * the next one of those without; f behind it, x whether a kind stands there, w its place; l whether a list, u the word, d whether bits; m
 * the word's number and len its length, k its kind, c behind it; h whether [..; N], y the digits of N or the first number of bits, 1 to 3
 * their values, r how many, A their value, y2 behind them; t whether .. stands there, y3 behind it, 4 and 5 the digits there, r3 how many, B
 * their value; e behind the kind; H whether a hint stands there, ha its place, hb behind a number sign, hw the width's digits, hc behind
 * them, hi the bytes of iso8601, he behind them, hh a word's place and hk whether it is there, z behind it; G whether all of that is good;
 * g the kind, N its number or the mask of the bytes of bit fields, and was what the position had.
 * Over all steps: kinds, five bits a position; numbers, eight bits a position; bad. */
#define DEFMTL_PLACE(t, set)                                                                                           \
    DEFMTL_FIND_##set(t, defmtl_a, defmtl_q) defmtl_b = defmtl_a + DEFMTL_PAIRS_##set(t, defmtl_a),                          \
    DEFMTL_FIND_##set(t, defmtl_a2, defmtl_b) defmtl_b2 = defmtl_a2 + DEFMTL_PAIRS_##set(t, defmtl_a2),                      \
    DEFMTL_FIND_##set(t, defmtl_p, defmtl_b2) defmtl_v = DEFMTL_OPENS(t, defmtl_p)
#define DEFMTL_STEP(t, set)                                                                                            \
    {                                                                                                                  \
        __extension__ enum {                                                                                           \
            DEFMTL_PLACE(t, set), defmtl_s = defmtl_p + defmtl_v, defmtl_n = DEFMTL_BYTE t[defmtl_s] DEFMTL_END - 48u < 10, \
            defmtl_o = defmtl_n ? DEFMTL_BYTE t[defmtl_s] DEFMTL_END - 48 : defmtl_i, defmtl_i = defmtl_i + (defmtl_v && !defmtl_n), \
            defmtl_f = defmtl_s + defmtl_n, defmtl_x = DEFMTL_BYTE t[defmtl_f] DEFMTL_END == '=', defmtl_w = defmtl_f + defmtl_x, \
            defmtl_l = defmtl_x && DEFMTL_BYTE t[defmtl_w] DEFMTL_END == '[', defmtl_u = defmtl_w + defmtl_l,          \
            defmtl_c0 = DEFMTL_BYTE t[defmtl_u] DEFMTL_END, defmtl_d = defmtl_x > defmtl_l && defmtl_c0 - 48u < 10,    \
            defmtl_hu = (defmtl_c0 + 19 * DEFMTL_BYTE t[defmtl_u + 1] DEFMTL_END & 0x7fff) % 30 + (DEFMTL_BYTE t[defmtl_u + 2] DEFMTL_END & 4) * 30 / 4, \
            defmtl_m = DEFMTL_BYTE DEFMTL_WORD_OF[defmtl_hu] DEFMTL_END, defmtl_len = DEFMTL_BYTE DEFMTL_WORD_LENGTH[defmtl_m] DEFMTL_END, \
            defmtl_k = (defmtl_x && DEFMTL_LIKE(t, defmtl_u, &DEFMTL_WORDS[5 * defmtl_m], defmtl_len)) * DEFMTL_BYTE DEFMTL_WORD_KIND[defmtl_m + 20 * defmtl_l] DEFMTL_END, \
            defmtl_c = defmtl_u + (defmtl_k > 0) * defmtl_len, defmtl_h = defmtl_l && DEFMTL_BYTE t[defmtl_c] DEFMTL_END == ';', \
            defmtl_y = defmtl_c + defmtl_h + (defmtl_h && DEFMTL_BYTE t[defmtl_c + 1] DEFMTL_END == ' '), \
            defmtl_1 = DEFMTL_BYTE t[defmtl_y] DEFMTL_END - 48, defmtl_2 = DEFMTL_BYTE t[defmtl_y + 1] DEFMTL_END - 48, \
            defmtl_3 = DEFMTL_BYTE t[defmtl_y + 2] DEFMTL_END - 48,                                                    \
            defmtl_r = (defmtl_1 < 10u) * (1 + (defmtl_2 < 10u) * (1 + (defmtl_3 < 10u))), defmtl_y2 = defmtl_y + defmtl_r, \
            defmtl_A = defmtl_r > 2 ? 100 * defmtl_1 + 10 * defmtl_2 + defmtl_3 : defmtl_r > 1 ? 10 * defmtl_1 + defmtl_2 : (defmtl_r > 0) * defmtl_1, \
            defmtl_t = defmtl_d && DEFMTL_LIKE(t, defmtl_y2, "..", 2), defmtl_y3 = defmtl_y2 + 2 * defmtl_t,           \
            defmtl_4 = DEFMTL_BYTE t[defmtl_y3] DEFMTL_END - 48, defmtl_5 = DEFMTL_BYTE t[defmtl_y3 + 1] DEFMTL_END - 48, \
            defmtl_r3 = (defmtl_4 < 10u) * (1 + (defmtl_5 < 10u)), defmtl_B = defmtl_4 + (defmtl_r3 > 1) * (9 * defmtl_4 + defmtl_5), \
            defmtl_e = defmtl_t ? defmtl_y3 + defmtl_r3 : defmtl_l ? defmtl_y2 + (DEFMTL_BYTE t[defmtl_y2] DEFMTL_END == ']') : defmtl_c, \
            defmtl_H = DEFMTL_BYTE t[defmtl_e] DEFMTL_END == ':', defmtl_ha = defmtl_e + defmtl_H,                     \
            defmtl_hb = defmtl_ha + (DEFMTL_BYTE t[defmtl_ha] DEFMTL_END == '#'),                                      \
            defmtl_hw = DEFMTL_BYTE t[defmtl_hb] DEFMTL_END != '0' ? 0 : DEFMTL_BYTE t[defmtl_hb + 1] DEFMTL_END - 49u > 8 ? 1 \
                : DEFMTL_BYTE t[defmtl_hb + 2] DEFMTL_END - 48u > 9 ? 2                                                \
                : 3 + (DEFMTL_BYTE t[defmtl_hb + 3] DEFMTL_END - 48u < 10 && __builtin_strncmp(&t[defmtl_hb + 1], "256", 3) < 0), \
            defmtl_hc = defmtl_hb + defmtl_hw, defmtl_hi = defmtl_hc == defmtl_ha && DEFMTL_LIKE(t, defmtl_hc, "iso8601", 7), \
            defmtl_he = defmtl_hc + 7 * defmtl_hi,                                                                     \
            defmtl_hh = (DEFMTL_BYTE t[defmtl_he] DEFMTL_END + 19 * DEFMTL_BYTE t[defmtl_he + 1] DEFMTL_END & 0x7fff) % 20, \
            defmtl_hn = DEFMTL_BYTE DEFMTL_HINT_LENGTH[defmtl_hh] DEFMTL_END,                                          \
            defmtl_hk = DEFMTL_LIKE(t, defmtl_he, &DEFMTL_HINTS[3 * defmtl_hh], defmtl_hn), defmtl_z = defmtl_he + defmtl_hk * defmtl_hn, \
            defmtl_G = defmtl_v && defmtl_hw != 1 && DEFMTL_BYTE t[defmtl_z] DEFMTL_END == '}' && (!defmtl_H ? defmtl_z == defmtl_e : (defmtl_hi ? DEFMTL_HINTS_ISO \
                : defmtl_hc == defmtl_ha ? DEFMTL_HINTS_ALONE : defmtl_hb == defmtl_ha ? DEFMTL_HINTS_WIDE : DEFMTL_HINTS_SIGN) >> defmtl_hk * defmtl_hh & 1), \
            defmtl_q = defmtl_p + defmtl_G * (defmtl_z + 1 - defmtl_p),                                                             \
            defmtl_g = (defmtl_G && defmtl_o < 8) * (!defmtl_x ? DEFMTL_K_FORMAT                                       \
                : defmtl_d ? (defmtl_t && defmtl_A < defmtl_B && defmtl_B < 65 && defmtl_r < 3) * DEFMTL_K_BITS        \
                : (defmtl_k > 0 && !(defmtl_l && (defmtl_e == defmtl_y2 || defmtl_h != defmtl_r > 0 || defmtl_A > 255))) * (defmtl_k + defmtl_h)), \
            defmtl_o7 = defmtl_o & 7, defmtl_was = (int)((uint64_t)defmtl_kinds >> 5 * defmtl_o7 & 31),                \
            defmtl_N = (defmtl_g > 0) * (defmtl_g == DEFMTL_K_BITS ? 0xff << defmtl_A / 8 & 0xff >> (7 - (defmtl_B - 1) / 8) : defmtl_A), \
            defmtl_bad = defmtl_bad || defmtl_v > (defmtl_g > 0) || (defmtl_g > 0 && defmtl_was > 0 && (defmtl_was != defmtl_g || \
                (defmtl_g != DEFMTL_K_BITS && (int)((uint64_t)defmtl_numbers >> 8 * defmtl_o7 & 255) != defmtl_N))),   \
            defmtl_kinds = defmtl_kinds | (uint64_t)defmtl_g << 5 * defmtl_o7,                                         \
            defmtl_numbers = defmtl_numbers | (uint64_t)defmtl_N << 8 * defmtl_o7                                      \
        };

/* As many steps as arguments and one, since a position may stand twice, and with one argument four times; and their ends. */
#define DEFMTL_STEPS_0(t, set) DEFMTL_STEP(t, set)
#define DEFMTL_STEPS_1(t, set) DEFMTL_STEPS_3(t, set)
#define DEFMTL_STEPS_2(t, set) DEFMTL_STEPS_0(t, set) DEFMTL_STEP(t, set) DEFMTL_STEP(t, set)
#define DEFMTL_STEPS_3(t, set) DEFMTL_STEPS_2(t, set) DEFMTL_STEP(t, set)
#define DEFMTL_STEPS_4(t, set) DEFMTL_STEPS_3(t, set) DEFMTL_STEP(t, set)
#define DEFMTL_STEPS_5(t, set) DEFMTL_STEPS_4(t, set) DEFMTL_STEP(t, set)
#define DEFMTL_STEPS_6(t, set) DEFMTL_STEPS_5(t, set) DEFMTL_STEP(t, set)
#define DEFMTL_STEPS_7(t, set) DEFMTL_STEPS_6(t, set) DEFMTL_STEP(t, set)
#define DEFMTL_STEPS_8(t, set) DEFMTL_STEPS_7(t, set) DEFMTL_STEP(t, set)
#define DEFMTL_ENDS_0 }}}
#define DEFMTL_ENDS_1 DEFMTL_ENDS_3
#define DEFMTL_ENDS_2 DEFMTL_ENDS_0 }}
#define DEFMTL_ENDS_3 DEFMTL_ENDS_2 }
#define DEFMTL_ENDS_4 DEFMTL_ENDS_3 }
#define DEFMTL_ENDS_5 DEFMTL_ENDS_4 }
#define DEFMTL_ENDS_6 DEFMTL_ENDS_5 }
#define DEFMTL_ENDS_7 DEFMTL_ENDS_6 }
#define DEFMTL_ENDS_8 DEFMTL_ENDS_7 }

/* ---- positions, behind the last step: the kind K, its number N, the mask M of the bytes of bit fields, the first byte F and the width
 * W of their window, and how it is sent P; and whether each position has a kind */
#define DEFMTL_POSITION(i)                                                                                             \
    defmtl_K##i = (int)((uint64_t)defmtl_kinds >> 5 * i & 31), defmtl_N##i = (int)((uint64_t)defmtl_numbers >> 8 * i & 255), \
    defmtl_M##i = defmtl_K##i == DEFMTL_K_BITS ? defmtl_N##i : 0, defmtl_F##i = DEFMTL_FIRST(defmtl_M##i),             \
    defmtl_W##i = DEFMTL_WIDE(defmtl_M##i, defmtl_F##i), defmtl_P##i = DEFMTL_OP_OF(defmtl_K##i, defmtl_W##i),
#define DEFMTL_POSITIONS_0
#define DEFMTL_POSITIONS_1 DEFMTL_POSITION(0)
#define DEFMTL_POSITIONS_2 DEFMTL_POSITIONS_1 DEFMTL_POSITION(1)
#define DEFMTL_POSITIONS_3 DEFMTL_POSITIONS_2 DEFMTL_POSITION(2)
#define DEFMTL_POSITIONS_4 DEFMTL_POSITIONS_3 DEFMTL_POSITION(3)
#define DEFMTL_POSITIONS_5 DEFMTL_POSITIONS_4 DEFMTL_POSITION(4)
#define DEFMTL_POSITIONS_6 DEFMTL_POSITIONS_5 DEFMTL_POSITION(5)
#define DEFMTL_POSITIONS_7 DEFMTL_POSITIONS_6 DEFMTL_POSITION(6)
#define DEFMTL_POSITIONS_8 DEFMTL_POSITIONS_7 DEFMTL_POSITION(7)
#define DEFMTL_EACH_0
#define DEFMTL_EACH_1 && defmtl_K0 > 0
#define DEFMTL_EACH_2 DEFMTL_EACH_1 && defmtl_K1 > 0
#define DEFMTL_EACH_3 DEFMTL_EACH_2 && defmtl_K2 > 0
#define DEFMTL_EACH_4 DEFMTL_EACH_3 && defmtl_K3 > 0
#define DEFMTL_EACH_5 DEFMTL_EACH_4 && defmtl_K4 > 0
#define DEFMTL_EACH_6 DEFMTL_EACH_5 && defmtl_K5 > 0
#define DEFMTL_EACH_7 DEFMTL_EACH_6 && defmtl_K6 > 0
#define DEFMTL_EACH_8 DEFMTL_EACH_7 && defmtl_K7 > 0

/* ---- the spelling of the literal s, which has a quote and a backslash behind it: a quote, up to six escapes that JSON has too, a quote at
 * the end, and no at sign */
#ifdef __clang__
#define DEFMTL_FIND_QUOTE(s)                                                                                           \
    defmtl_b = DEFMTL_FIND(s, defmtl_size, '\\', defmtl_q), defmtl_e = DEFMTL_FIND(s, defmtl_size, '"', defmtl_q),
#define DEFMTL_ESCAPED(s) defmtl_b < defmtl_e && __builtin_strchr("\"\\nrtbfu", s[defmtl_b + 1]) ? defmtl_b + 2 : defmtl_q
#define DEFMTL_ENDED(s) defmtl_e < defmtl_b
#else
#define DEFMTL_FIND_QUOTE(s) defmtl_e = defmtl_q + (int)__builtin_strcspn(&s[defmtl_q], "\"\\"),
#define DEFMTL_ESCAPED(s) DEFMTL_AT(s, defmtl_e) == '\\' && __builtin_strspn(&s[defmtl_e + 1], "\"\\nrtbfu") ? defmtl_e + 2 : defmtl_q
#define DEFMTL_ENDED(s) DEFMTL_AT(s, defmtl_e) == '"'
#endif
#define DEFMTL_BACK(s)                                                                                                 \
    {                                                                                                                  \
        __extension__ enum { DEFMTL_FIND_QUOTE(s) defmtl_q = DEFMTL_ESCAPED(s) };
#define DEFMTL_SPELLED(s)                                                                                              \
    {                                                                                                                  \
        __extension__ enum { defmtl_size = sizeof(s) - 1, defmtl_q = 1 };                                                  \
        DEFMTL_BACK(s) DEFMTL_BACK(s) DEFMTL_BACK(s) DEFMTL_BACK(s) DEFMTL_BACK(s) DEFMTL_BACK(s)                      \
        {                                                                                                              \
            __extension__ enum {                                                                                       \
                DEFMTL_FIND_QUOTE(s)                                                                                   \
                defmtl_spelled = DEFMTL_AT(s, 0) == '"' && defmtl_e == (int)sizeof(s) - 4 && DEFMTL_ENDED(s) && DEFMTL_WITHOUT(s, "@") \
            };                                                                                                         \
            DEFMTL_ASSERT(defmtl_spelled, DEFMTL_TOLD_SPELLING);                                                       \
        }                                                                                                              \
    }}}}}}}
#define DEFMTL_READ_SPELLING(t) DEFMTL_SPELLED(DEFMTL_STRING(t) "\"\\")
/* A look at ISTR's text, which stands in a statement several times: a quote, as many bytes as a literal of no escapes or a backslash, and no
 * at sign. */
#define DEFMTL_READ_ISTR(t)                                                                                            \
    __extension__ enum { defmtl_literal = DEFMTL_LITERAL(DEFMTL_STRING(t), t) };                                       \
    DEFMTL_ASSERT(defmtl_literal, DEFMTL_TOLD_ISTR);
#ifdef __clang__
#define DEFMTL_LITERAL(s, t) s[0] == '"' && (sizeof(s) == sizeof(t) + 2 || __builtin_strchr(s, '\\')) && !__builtin_strchr(s, '@')
#else
#define DEFMTL_LITERAL(s, t) __builtin_strcspn(s, "\"") == 0 && (sizeof(s) == sizeof(t) + 2 || __builtin_strcspn(s, "\\") < sizeof(s) - 1) && DEFMTL_WITHOUT(s, "@")
#endif

/* ---- a text of n arguments, or one variant of it, from a place on and to an end; set says whether a bar is one. It opens blocks, which
 * DEFMTL_ENDS_n closes. */
#define DEFMTL_READ_FROM(t, set, n, from, to)                                                                          \
    {                                                                                                                  \
        __extension__ enum { defmtl_size = sizeof(t) - 1, defmtl_q = from, defmtl_i = 0, defmtl_kinds = 0, defmtl_numbers = 0, defmtl_bad = 0 }; \
        DEFMTL_STEPS_##n(t, set) {                                                                                     \
            __extension__ enum {                                                                                       \
                DEFMTL_PLACE(t, set), DEFMTL_POSITIONS_##n                                                             \
                defmtl_read = !defmtl_bad && (defmtl_v || defmtl_p >= (to)),                                           \
                defmtl_numbered = !defmtl_read || (!defmtl_v && !((uint64_t)defmtl_kinds >> 5 * n) DEFMTL_EACH_##n)    \
            };                                                                                                         \
            DEFMTL_ASSERT(defmtl_read, DEFMTL_TOLD_TEXT);                                                              \
            DEFMTL_ASSERT(defmtl_numbered, DEFMTL_TOLD_NUMBER);
#define DEFMTL_READ(t, n) DEFMTL_READ_SPELLING(t) DEFMTL_READ_FROM(DEFMTL_PADDED(t), BRACES, n, 0, (int)sizeof(t) - 1)

/* ---- variants: where each begins and ends, and how many there are, up to 8 or 64, else 0 */
#define DEFMTL_BAR(t, k, j)                                                                                            \
    defmtl_until_##k = DEFMTL_NEXT(t, '|', "|", defmtl_bar_##j), defmtl_more_##k = DEFMTL_AT(t, defmtl_until_##k) == '|',     \
    defmtl_bar_##k = defmtl_until_##k + defmtl_more_##k, defmtl_many_##k = defmtl_many_##j + defmtl_more_##k,
#define DEFMTL_BARS(t) \
    __extension__ enum { defmtl_bar_s = 0, defmtl_many_s = 1, \
        DEFMTL_BAR(t, 0, s) DEFMTL_BAR(t, 1, 0) DEFMTL_BAR(t, 2, 1) DEFMTL_BAR(t, 3, 2) \
        DEFMTL_BAR(t, 4, 3) DEFMTL_BAR(t, 5, 4) DEFMTL_BAR(t, 6, 5) DEFMTL_BAR(t, 7, 6) \
        defmtl_variants = defmtl_more_7 ? 0 : defmtl_many_7 };
#define DEFMTL_BARS_64(t) \
    __extension__ enum { defmtl_bar_s = 0, defmtl_many_s = 1, \
        DEFMTL_BAR(t, 0, s) DEFMTL_BAR(t, 1, 0) DEFMTL_BAR(t, 2, 1) DEFMTL_BAR(t, 3, 2) \
        DEFMTL_BAR(t, 4, 3) DEFMTL_BAR(t, 5, 4) DEFMTL_BAR(t, 6, 5) DEFMTL_BAR(t, 7, 6) \
        DEFMTL_BAR(t, 8, 7) DEFMTL_BAR(t, 9, 8) DEFMTL_BAR(t, 10, 9) DEFMTL_BAR(t, 11, 10) \
        DEFMTL_BAR(t, 12, 11) DEFMTL_BAR(t, 13, 12) DEFMTL_BAR(t, 14, 13) DEFMTL_BAR(t, 15, 14) \
        DEFMTL_BAR(t, 16, 15) DEFMTL_BAR(t, 17, 16) DEFMTL_BAR(t, 18, 17) DEFMTL_BAR(t, 19, 18) \
        DEFMTL_BAR(t, 20, 19) DEFMTL_BAR(t, 21, 20) DEFMTL_BAR(t, 22, 21) DEFMTL_BAR(t, 23, 22) \
        DEFMTL_BAR(t, 24, 23) DEFMTL_BAR(t, 25, 24) DEFMTL_BAR(t, 26, 25) DEFMTL_BAR(t, 27, 26) \
        DEFMTL_BAR(t, 28, 27) DEFMTL_BAR(t, 29, 28) DEFMTL_BAR(t, 30, 29) DEFMTL_BAR(t, 31, 30) \
        DEFMTL_BAR(t, 32, 31) DEFMTL_BAR(t, 33, 32) DEFMTL_BAR(t, 34, 33) DEFMTL_BAR(t, 35, 34) \
        DEFMTL_BAR(t, 36, 35) DEFMTL_BAR(t, 37, 36) DEFMTL_BAR(t, 38, 37) DEFMTL_BAR(t, 39, 38) \
        DEFMTL_BAR(t, 40, 39) DEFMTL_BAR(t, 41, 40) DEFMTL_BAR(t, 42, 41) DEFMTL_BAR(t, 43, 42) \
        DEFMTL_BAR(t, 44, 43) DEFMTL_BAR(t, 45, 44) DEFMTL_BAR(t, 46, 45) DEFMTL_BAR(t, 47, 46) \
        DEFMTL_BAR(t, 48, 47) DEFMTL_BAR(t, 49, 48) DEFMTL_BAR(t, 50, 49) DEFMTL_BAR(t, 51, 50) \
        DEFMTL_BAR(t, 52, 51) DEFMTL_BAR(t, 53, 52) DEFMTL_BAR(t, 54, 53) DEFMTL_BAR(t, 55, 54) \
        DEFMTL_BAR(t, 56, 55) DEFMTL_BAR(t, 57, 56) DEFMTL_BAR(t, 58, 57) DEFMTL_BAR(t, 59, 58) \
        DEFMTL_BAR(t, 60, 59) DEFMTL_BAR(t, 61, 60) DEFMTL_BAR(t, 62, 61) DEFMTL_BAR(t, 63, 62) \
        defmtl_variants = defmtl_more_63 ? 0 : defmtl_many_63 };
#define DEFMTL_NO_BRACES(t) DEFMTL_WITHOUT(t, "{") && DEFMTL_WITHOUT(t, "}")
#define DEFMTL_READ_VARIANT(t, n, k, j) DEFMTL_READ_FROM(DEFMTL_PADDED(t), BARS, n, defmtl_bar_##j, defmtl_until_##k)

/* ---- arguments: the type T, the class G and its number C, whether D a number, whether J an integer that may be a constant, that constant V,
 * the size S of an array of bytes; and a, the argument itself, which is evaluated here and once: 0 where its type is none that is sent */
#if __SIZEOF_LONG__ == 8
#define DEFMTL_OF_LONG DEFMTL_OF_I64
#define DEFMTL_OF_UNSIGNED_LONG DEFMTL_OF_U64
#else
#define DEFMTL_OF_LONG DEFMTL_OF_I32
#define DEFMTL_OF_UNSIGNED_LONG DEFMTL_OF_U32
#endif
#define DEFMTL_CLASS(a)                                                                                                \
    _Generic((a), _Bool: DEFMTL_OF_BOOL, char: DEFMTL_OF_CHAR, unsigned char: DEFMTL_OF_U8, unsigned short: DEFMTL_OF_U16, unsigned: DEFMTL_OF_U32, \
        unsigned long: DEFMTL_OF_UNSIGNED_LONG, unsigned long long: DEFMTL_OF_U64, signed char: DEFMTL_OF_I8, short: DEFMTL_OF_I16, int: DEFMTL_OF_I32, \
        long: DEFMTL_OF_LONG, long long: DEFMTL_OF_I64, float: DEFMTL_OF_F32, double: DEFMTL_OF_F64, char *: DEFMTL_OF_STR, const char *: DEFMTL_OF_STR, \
        unsigned char *: DEFMTL_OF_RAW, const unsigned char *: DEFMTL_OF_RAW, struct defmtl_istr: DEFMTL_OF_ISTR, struct defmtl_slice: DEFMTL_OF_BYTES, \
        struct defmtl_wide: DEFMTL_OF_WIDE, struct defmtl_value: DEFMTL_OF_FORMAT, struct defmtl_list: DEFMTL_OF_LIST, default: 0u)
#define DEFMTL_CHECK(i, a)                                                                                             \
    __extension__ typedef __typeof__(a) defmtl_T##i;                                                                   \
    __extension__ enum {                                                                                               \
        defmtl_G##i = DEFMTL_CLASS(*(defmtl_T##i *)0), defmtl_C##i = defmtl_G##i & 31, defmtl_D##i = 0x7bfe >> defmtl_C##i & 1, defmtl_J##i = 0x30c0 >> defmtl_C##i & 1 \
    };                                                                                                                 \
    __extension__ __auto_type defmtl_arg_##i = __builtin_choose_expr(defmtl_C##i > 0, a, 0);                           \
    __extension__ enum {                                                                                               \
        defmtl_S##i = defmtl_C##i != 21 || __builtin_types_compatible_p(defmtl_T##i, __typeof__(defmtl_arg_##i)) ? 0 : (int)sizeof(defmtl_T##i), \
        defmtl_L##i = DEFMTL_NEVER, /* so the next one has 64 bits too */                                              \
        defmtl_V##i = __builtin_choose_expr(defmtl_J##i && __builtin_constant_p(a), (long long)__builtin_choose_expr(defmtl_J##i, a, 0), DEFMTL_NEVER) \
    };                                                                                                                 \
    __extension__ enum { defmtl_suits_##i = !defmtl_read || !defmtl_numbered || DEFMTL_SUITS(defmtl_K##i, defmtl_N##i, defmtl_M##i, defmtl_G##i, defmtl_C##i, defmtl_S##i, defmtl_V##i) }; \
    DEFMTL_ASSERT(defmtl_suits_##i, DEFMTL_TOLD_KIND(i));

/* ---- what is handed on of an argument, by how its position is sent */
#define DEFMTL_ARG(i, a)                                                                                               \
    __builtin_choose_expr(defmtl_P##i <= DEFMTL_B8, DEFMTL_SCALAR(i, __builtin_choose_expr(defmtl_D##i, defmtl_arg_##i, 0)),              \
    __builtin_choose_expr(defmtl_S##i > 0, defmtl_make_slice(__builtin_choose_expr(defmtl_C##i == 21, defmtl_arg_##i, 0), (uint32_t)defmtl_S##i), \
    __builtin_choose_expr(defmtl_P##i == DEFMTL_ARRAY, defmtl_exactly(__builtin_choose_expr(defmtl_C##i == 18, defmtl_arg_##i, (struct defmtl_list){0}), (uint32_t)defmtl_N##i), \
        __builtin_choose_expr(defmtl_C##i == DEFMTL_WIDE_CLASS, defmtl_make_slice(&defmtl_arg_##i, 16), defmtl_arg_##i))))
#define DEFMTL_SCALAR(i, number)                                                                                       \
    __builtin_choose_expr(defmtl_K##i == DEFMTL_K_F64, defmtl_double_bits((double)number),                                     \
    __builtin_choose_expr(defmtl_P##i == DEFMTL_B8, (uint64_t)number >> 8 * defmtl_F##i,                                       \
    __builtin_choose_expr(defmtl_K##i == DEFMTL_K_F32, defmtl_float_bits((float)number),                                       \
    __builtin_choose_expr(defmtl_K##i == DEFMTL_K_ISTR, (uint32_t)(uintptr_t)__builtin_choose_expr(defmtl_C##i == 16, defmtl_arg_##i, (struct defmtl_istr){0}).entry, \
    __builtin_choose_expr(defmtl_K##i == DEFMTL_K_BOOL, (uint32_t)!!number,                                                    \
        (uint32_t)((uint64_t)number >> 8 * defmtl_F##i) & (defmtl_C##i == 2 ? 0xffu : 0xffffffffu))))))

/* ---- the stamp's text, which has one number */
#define DEFMTL_STAMP_READ(t)                                                                                           \
    DEFMTL_ENTRY(stamp, "defmt_timestamp", "timestamp", t)                                                             \
    DEFMTL_READ(t, 1)                                                                                                  \
    __extension__ enum { defmtl_stamp_bytes = 1 << (defmtl_K0 + 2 & 3) };                                                            \
    DEFMTL_ASSERT(DEFMTL_IS_UNSIGNED(defmtl_K0), "defmtl: DEFMTL_STAMP has one {=u8}, {=u16}, {=u32} or {=u64}");
