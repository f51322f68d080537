/* Format strings as symbols. Each text is the name of a symbol in the section .defmt, which takes no memory of the device, and
 * the symbol's address is the text's index. Included by defmtl.h alone.
 *
 * A name is a JSON object. It is written as tokens and made a string by the preprocessor, since the spelling of a literal of C
 * is that of JSON where its escapes are JSON's, which the checks see to. GCC hands the name to the assembler as it is, so it is
 * made a string twice, with its quotes and backslashes escaped; Clang writes an object file itself. */
#define DEFMTL_STRING_(...) #__VA_ARGS__
#define DEFMTL_STRING(...) DEFMTL_STRING_(__VA_ARGS__)
#define DEFMTL_JSON(n, tg, text) \
    {"package":DEFMTL_PACKAGE,"tag":tg,"data":text,"disambiguator":DEFMTL_STRING(n),"file":__FILE__,"line":__LINE__}
#ifdef __clang__
#define DEFMTL_LABEL(n, tag, text) DEFMTL_STRING(DEFMTL_JSON(n, tag, text))
#else
#define DEFMTL_LABEL(n, tag, text) DEFMTL_STRING(DEFMTL_STRING(DEFMTL_JSON(n, tag, text)))
#endif

/* The symbol as a variable: for what stands in a file and not in a function. */
#define DEFMTL_STATIC(n, tag, part, text)                                                                              \
    static const char defmtl_entry_##n __asm__(DEFMTL_LABEL(n, tag, text)) __attribute__((section(".defmt." part), used)) = 0;

#if defined(__clang__) && defined(__cplusplus)

/* A template's instances would each have a variable of this name, and all but one another name. So only the first one has it: a
 * place is a type of its own in each instance, and the first place of the statement n defines the function that others find. */
namespace defmtl_places {
template <int n> struct statement {
    friend constexpr bool defmtl_placed(statement<n>);
};
template <int n, class place> struct placed {
    friend constexpr bool defmtl_placed(statement<n>) { return true; }
    static constexpr bool here = true;
};
template <int n, class place, bool = defmtl_placed(statement<n>{})> constexpr bool found(int) { return true; }
template <int n, class place> constexpr bool found(...) { return false; }
template <int n, class place, bool = found<n, place>(0)> struct first {
    static constexpr bool here = placed<n, place>::here;
};
template <int n, class place> struct first<n, place, true> {
    static constexpr bool here = false;
};
}
#define DEFMTL_ENTRY(n, tag, part, text)                                                                               \
    struct defmtl_place_##n {};                                                                                        \
    _Pragma("clang diagnostic push") _Pragma("clang diagnostic ignored \"-Wundefined-internal\"")                      \
    extern const char defmtl_index_##n __asm__(DEFMTL_LABEL(n, tag, text)); /* within an unnamed namespace too */      \
    _Pragma("clang diagnostic pop")                                                                                    \
    if constexpr (defmtl_places::first<n, defmtl_place_##n>::here) {                                                     \
        DEFMTL_STATIC(n, tag, part, text)                                                                              \
    }
#define DEFMTL_INDEX_OF(n) &defmtl_index_##n
#define DEFMTL_ISTR_ENTRY(n, text) DEFMTL_STATIC(n, "defmt_str", "str", text) /* an argument stands in operands that nothing is made of */
#define DEFMTL_ISTR_INDEX(n) &defmtl_entry_##n

#elif defined(__clang__)

#define DEFMTL_ENTRY(n, tag, part, text) DEFMTL_STATIC(n, tag, part, text)
#define DEFMTL_INDEX_OF(n) &defmtl_entry_##n

#else /* a variable in an inline function or a template would be of another kind of section, so the assembler makes the symbol */

/* Where no assembler's instruction takes braces in a name, an instruction has another name for the same place. What names the symbol and
 * what makes it are dropped together with code that never runs. An inlined function, a loop or a template brings the lines twice, hence
 * .ifndef. */
#if defined(__arm__) || defined(__aarch64__)
#define DEFMTL_PROGBITS "%progbits"
#else
#define DEFMTL_PROGBITS "@progbits"
#endif
#define DEFMTL_PLACED(part, label, plain)                                                                              \
    ".pushsection .defmt." part ",\"\"," DEFMTL_PROGBITS "\n\t.ifndef " label "\n" label ":\n" plain "\t.byte 0\n\t.endif\n\t.popsection\n\t"
#define DEFMTL_ENTRY(n, tag, part, text) DEFMTL_ENTRY_(n, part, DEFMTL_LABEL(n, tag, text))

#if !defined(__cplusplus) && (defined(__arm__) || defined(__aarch64__))

#define DEFMTL_INDEX_OF(n) &defmtl_entry_##n
#define DEFMTL_ENTRY_(n, part, label)                                                                                  \
    extern const char defmtl_entry_##n __asm__(label);                                                                 \
    __asm__(DEFMTL_PLACED(part, label, ""));

#elif !defined(__cplusplus) && (defined(__x86_64__) || (defined(__i386__) && !defined(__PIC__)))

#ifdef __PIC__
#define DEFMTL_NEAR __attribute__((visibility("hidden"))) /* else it would be no operand */
#else
#define DEFMTL_NEAR
#endif
#define DEFMTL_INDEX_OF(n) defmtl_index_##n
#define DEFMTL_ENTRY_(n, part, label)                                                                                  \
    extern const char defmtl_entry_##n __asm__(label) DEFMTL_NEAR;                                                     \
    const char *defmtl_index_##n;                                                                                      \
    __asm__ volatile(DEFMTL_PLACED(part, "%c1", "") ".set .Ldefmtl%=, %c1\n\t{movl $.Ldefmtl%=, %k0|mov %k0, offset .Ldefmtl%=}" \
                     : "=r"(defmtl_index_##n) : "i"(&defmtl_entry_##n));

#else

/* In a template g++ forgets the name that a declaration has for the assembler, and takes the one of C++, with the namespaces that stand
 * round it: the operand %c0, which is the name that g++ takes, is set to the plain one where it is another. Where -flto brings two files
 * together that have a statement of the same number on the same line, the assembler tells that the plain name is there already: then give
 * each file a DEFMTL_UNIT of its own. */
#define DEFMTL_PLAIN__(n, line, unit) defmtl_entry_##n##_##line##_##unit
#define DEFMTL_PLAIN_(n, line, unit) DEFMTL_PLAIN__(n, line, unit)
#define DEFMTL_PLAIN(n) DEFMTL_PLAIN_(n, __LINE__, DEFMTL_UNIT)
#define DEFMTL_INDEX_OF(n) &DEFMTL_PLAIN(n)
#if !defined(__cplusplus) || (defined(__PIC__) && !defined(__PIE__)) /* which takes no such operand: no statement in a template within a namespace */
#define DEFMTL_ALIAS(n)
#else
#define DEFMTL_ALIAS(n) __asm__(".ifndef %c0\n\t.set %c0, " DEFMTL_STRING(DEFMTL_PLAIN(n)) "\n\t.endif" : : "i"(&DEFMTL_PLAIN(n)));
#endif
#define DEFMTL_ENTRY_(n, part, label)                                                                                  \
    extern const char DEFMTL_PLAIN(n) __asm__(DEFMTL_STRING(DEFMTL_PLAIN(n)));                                         \
    __asm__(DEFMTL_PLACED(part, label, DEFMTL_STRING(DEFMTL_PLAIN(n)) ":\n"));                                         \
    DEFMTL_ALIAS(n)

#endif
#endif

#ifndef DEFMTL_ISTR_ENTRY
#define DEFMTL_ISTR_ENTRY(n, text) DEFMTL_ENTRY(n, "defmt_str", "str", text)
#define DEFMTL_ISTR_INDEX(n) DEFMTL_INDEX_OF(n)
#endif

/* Each file names its profile, so that a host reads the firmware by it, and refuses one whose files differ in it. */
#define DEFMTL_MARKER "\"_defmt_profile_ = " DEFMTL_STRING(DEFMTL_PROFILE) "\""
__asm__(".set " DEFMTL_MARKER ", 1");
