/* Kinds of parameters, what suits them, and how they are sent. Included by defmtl.h alone. */

/* Kinds of a text's parameters, and classes of arguments by the same numbers. The two lowest bits of a signed kind, and those of
 * an unsigned one and two, are its width: 0 is one byte, 1 two, 2 four, 3 eight. The first fifteen stand in the order of their
 * words in the alphabet. */
#define DEFMTL_K_BOOL 1
#define DEFMTL_K_CHAR 2
#define DEFMTL_K_F32 3
#define DEFMTL_K_F64 4
#define DEFMTL_K_I16 5
#define DEFMTL_K_I32 6
#define DEFMTL_K_I64 7
#define DEFMTL_K_I8 8
#define DEFMTL_K_STR 10
#define DEFMTL_K_U16 11
#define DEFMTL_K_U32 12
#define DEFMTL_K_U64 13
#define DEFMTL_K_U8 14
#define DEFMTL_K_ISTR 16
#define DEFMTL_K_FORMAT 17
#define DEFMTL_K_LIST 18
#define DEFMTL_K_ARRAY 19
#define DEFMTL_K_BYTES 20
#define DEFMTL_K_RAW 21
#define DEFMTL_K_BITS 22
#define DEFMTL_K_U128 24
#define DEFMTL_K_I128 26

/* How an argument is sent: numbers of one, two, four and eight bytes; a text; bytes with and without their number; a Format
 * value; Format values with and without their number. A call has four bits for each argument, the first one's lowest. */
#define DEFMTL_B1 1
#define DEFMTL_B2 2
#define DEFMTL_B4 3
#define DEFMTL_B8 4
#define DEFMTL_TEXT 5
#define DEFMTL_BYTES 6
#define DEFMTL_RAW 7
#define DEFMTL_VALUE 8
#define DEFMTL_LIST 9
#define DEFMTL_ARRAY 10

/* ---- what the compiler tells */
#ifdef __cplusplus
#define DEFMTL_TOLD_NUMBER "defmtl: the text's parameters, {=u8} and the like, and the arguments differ in number"
#define DEFMTL_TOLD_ESCAPES "with escapes of "
#else
#define DEFMTL_TOLD_NUMBER \
    "defmtl: the text's parameters, {=u8} and the like, and the arguments differ in number, or a position stands too often (README.md, Limits)"
#define DEFMTL_TOLD_ESCAPES "with at most six escapes, of "
#endif
#define DEFMTL_TOLD_TEXT "defmtl: the text is no format string: look at its braces, kinds, hints and bits, and that a position has one kind"
#define DEFMTL_TOLD_SPELLING                                                                                           \
    "defmtl: the text must be one plain literal without an at sign (write \\u0040) and " DEFMTL_TOLD_ESCAPES "\\\" \\\\ \\n \\r \\t \\b \\f \\uHHHH"
#define DEFMTL_TOLD_MANY "defmtl: a statement takes at most eight arguments"
#define DEFMTL_TOLD_VARIANTS "defmtl: the text's variants and the lists of arguments differ in number"
#define DEFMTL_TOLD_ENUM "defmtl: the text of an enum has two variants or more, without braces, parted by bars (in C at most 64)"
#define DEFMTL_TOLD_ISTR "defmtl: ISTR takes one plain literal without an at sign"
#define DEFMTL_TOLD_KIND(i)                                                                                            \
    "defmtl: the " DEFMTL_NTH_##i " argument is of another kind than the text's, or wider (cast it, or use SLICE of bytes, FMT or LIST with a " \
    "pointer to their type, ISTR, WIDE; a {} without a kind, as {=u8} has, asks for FMT)"
#define DEFMTL_NTH_0 "first"
#define DEFMTL_NTH_1 "second"
#define DEFMTL_NTH_2 "third"
#define DEFMTL_NTH_3 "fourth"
#define DEFMTL_NTH_4 "fifth"
#define DEFMTL_NTH_5 "sixth"
#define DEFMTL_NTH_6 "seventh"
#define DEFMTL_NTH_7 "eighth"

/* ---- classes of arguments: the class's number by those of kinds, and above its five bits the kinds that suit it, a bit each: its own, wider
 * ones of the same sign, and wider signed ones of an unsigned class */
#define DEFMTL_OF_BOOL 0x41u
#define DEFMTL_OF_CHAR 0x82u
#define DEFMTL_OF_F32 0x303u
#define DEFMTL_OF_F64 0x204u
#define DEFMTL_OF_I16 0x1c05u
#ifdef __cplusplus
#define DEFMTL_OF_I32 0x1806u
#else
#define DEFMTL_OF_I32 0x1846u /* of bool too: what C has where two values are compared */
#endif
#define DEFMTL_OF_I64 0x1007u
#define DEFMTL_OF_I8 0x3c08u
#define DEFMTL_OF_STR 0x800au
#define DEFMTL_OF_U16 0x807180bu
#define DEFMTL_OF_U32 0x806108cu
#define DEFMTL_OF_U64 0x804000du
#define DEFMTL_OF_U8 0x80f1c0eu
#define DEFMTL_OF_ISTR 0x200010u
#define DEFMTL_OF_FORMAT 0x400011u
#define DEFMTL_OF_LIST 0x1800012u
#define DEFMTL_OF_BYTES 0x2000014u
#define DEFMTL_OF_RAW 0x6000015u   /* an array of bytes, or a pointer to some */
#define DEFMTL_OF_WIDE 0xa0000019u /* of WIDE(..) */
#define DEFMTL_WIDE_CLASS 25
#define DEFMTL_NEVER (-0x7fffffffffffffffLL - 1)
#define DEFMTL_IS_UNSIGNED(c) (c >= 11 && c <= 14)

/* Whether an argument of the class G, of the number c, suits the kind k: N is the number of [u8; N], M the mask of the bytes of bit fields or
 * 0, S the size of an array of bytes, and V a constant's value of 64 bits or DEFMTL_NEVER. A constant suits where it fits. */
#define DEFMTL_FITS(k, c, V)                                                                                           \
    (V != DEFMTL_NEVER && (k == 13 || k == 22 ? V >= 0 : k == 7 ? c != 13 || V >= 0 : k == 2 ? V >= 0 && V < 0x110000  \
     : k > 10 && k < 15 ? V >> (8 << (k + 2 & 3)) == 0 : k > 4 && k < 9 && V >> ((8 << (k & 3)) - 1) == (V < 0 ? -1 : 0)))
#define DEFMTL_SUITS(k, N, M, G, c, S, V)                                                                              \
    ((G >> 5 >> k & 1 && (c != 21 || (k == 21 ? S == N : S > 0)) && M >> (1 << (c + 2 & 3)) == 0) || DEFMTL_FITS(k, c, V))

/* ---- the window of bytes that bit fields send: its first byte and its width, of the mask of the bytes they use; without a mask the first is 0 */
#define DEFMTL_FIRST(m) (__builtin_ctz(m | 0x100u) & 7)
#define DEFMTL_WIDE(m, first) (32 - __builtin_clz(m | 1u) - first)

/* ---- how a kind is sent, by tables of four bits a kind; bit fields by the width of their window */
#define DEFMTL_OP_OF(k, wide)                                                                                          \
    (k == DEFMTL_K_BITS ? (wide < 3 ? wide : wide < 5 ? DEFMTL_B4 : DEFMTL_B8)                                         \
                        : (int)((k < 16 ? 0x0143250143243310ULL : 0x7070076a982ULL) >> 4 * (k & 15) & 15))
