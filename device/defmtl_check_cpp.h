/* The checks in C++17: the text is read by functions at compile time, after the grammar as a whole but for u128, i128 and bit
 * fields above bit 64. Included by defmtl.h alone. */
namespace defmtl_text {

/* What a text, or one variant of it, asks for. */
struct text {
    unsigned char kind[8] = {}, mask[8] = {}; /* of each position its kind, and the bytes that its bit fields use */
    unsigned short number[8] = {};            /* N of [..; N] */
    int count = 0;                            /* positions, or -1 where one is left out or stands above 7 */
    bool fine = true;                         /* braces, kinds and hints are right, and no position has two kinds */
};

constexpr bool digit(char c) { return c >= '0' && c <= '9'; }

constexpr bool starts(const char *t, const char *word) {
    for (; *word; t++, word++)
        if (*t != *word) return false;
    return true;
}

constexpr int decimal(const char *&t) {
    int n = 0;
    for (; digit(*t); t++) n = n > 99999 ? n : 10 * n + (*t - '0');
    return n;
}

/* The width of u8 to usize and of i8 to isize, behind their first letter: 0 to 3, or -1. */
constexpr int width(const char *&t) {
    const char *at = t;
    if (*at == '8') return t += 1, 0;
    if (*at == '1' && at[1] == '6') return t += 2, 1;
    if (starts(at, "128")) return t += 3, 4;
    if (*at == '3' && at[1] == '2') return t += 2, 2;
    if (*at == '6' && at[1] == '4') return t += 2, 3;
    if (starts(at, "size")) return t += 4, 2;
    return -1;
}

constexpr int behind(const char *&t, const char *word, int kind) {
    if (!starts(t, word)) return 0;
    while (*word) t++, word++;
    return kind;
}

/* The kind that is spelled at t, which goes on behind it; 0 is none. */
constexpr int kind_at(const char *&t, int &n) {
    constexpr unsigned char of_unsigned[] = {14, 11, 12, 13, DEFMTL_K_U128}, of_signed[] = {8, 5, 6, 7, DEFMTL_K_I128};
    switch (*t) {
    case 'u': {
        int w = width(++t);
        return w < 0 ? 0 : of_unsigned[w];
    }
    case 'i': {
        if (t[1] == 's' && t[2] == 't') return behind(t, "istr", 16);
        int w = width(++t);
        return w < 0 ? 0 : of_signed[w];
    }
    case 's': return behind(t, "str", 10);
    case 'b': return behind(t, "bool", 1);
    case 'c': return behind(t, "char", 2);
    case 'f': return t[1] == '3' ? behind(t, "f32", 3) : behind(t, "f64", 4);
    case '?': return t++, 17;
    case '[': {
        int kind = t[1] == 'u' ? behind(t, "[u8", 20) : behind(t, "[?", 18);
        if (kind != 0 && *t == ';') {
            kind++;
            for (t++; *t == ' ';) t++;
            if (!digit(*t)) return 0;
            n = decimal(t);
            if (n > 65535) return 0;
        }
        return kind != 0 && *t == ']' ? (t++, kind) : 0;
    }
    default: return 0;
    }
}

constexpr bool hint_at(const char *&t) {
    constexpr const char *words[] = {"}", "?}", "a}", "us}", "ms}", "ts}", "tms}", "tus}", "iso8601s}", "iso8601ms}"};
    for (const char *word : words) {
        if (starts(t, word)) {
            while (*t != '}') t++;
            return true;
        }
    }
    bool sign = *t == '#';
    if (sign) t++;
    if (*t == '0') {
        t++;
        if (!digit(*t) || *t == '0' || decimal(t) > 255) return false;
        if (*t == '}') return !sign;
    }
    return (*t == 'x' || *t == 'X' || *t == 'b' || *t == 'o') && *++t == '}';
}

/* Reads the variant v of a text with bars, or with v -1 a text whose bars are letters. */
constexpr text parse(const char *t, int v) {
    text r;
    int next = 0;
    for (int bars = v; bars > 0 && *t; t++) bars -= *t == '|';
    for (; *t && !(v >= 0 && *t == '|'); t++) {
        if (*t != '{' && *t != '}') continue;
        if (t[1] == *t) {
            t++;
            continue;
        }
        if (*t == '}') return r.fine = false, r;
        t++;
        int at = 0, kind = 17, a = 0, b = 0;
        if (digit(*t)) {
            if (*t == '0' && digit(t[1])) return r.fine = false, r;
            at = decimal(t);
        } else at = next++;
        if (*t == '=') {
            t++;
            if (digit(*t)) {
                kind = 22;
                a = decimal(t);
                if (!starts(t, "..") || !digit(t[2])) return r.fine = false, r;
                b = decimal(t += 2);
                if (a >= b || b > 64) return r.fine = false, r;
            } else kind = kind_at(t, a);
        }
        if (kind == 0 || (*t == ':' && !hint_at(++t)) || *t != '}') return r.fine = false, r;
        if (at > 7) return r.count = -1, r;
        if (r.kind[at] != 0 && (r.kind[at] != kind || (kind != 22 && r.number[at] != a))) return r.fine = false, r;
        r.kind[at] = static_cast<unsigned char>(kind);
        if (kind == 22) r.mask[at] = static_cast<unsigned char>(r.mask[at] | ((0xff << a / 8) & (0xff >> (7 - (b - 1) / 8))));
        else r.number[at] = static_cast<unsigned short>(a);
        if (at >= r.count) r.count = at + 1;
    }
    for (int k = 0; k < r.count; k++)
        if (r.kind[k] == 0) r.count = -1;
    return r;
}

/* Whether the literal's spelling is a JSON string. */
constexpr bool spelled(const char *s) {
    if (*s++ != '"') return false;
    for (; *s && *s != '"'; s++) {
        if (*s == '@' || (*s > 0 && *s < ' ')) return false;
        if (*s != '\\') continue;
        s++;
        if (*s != 'n' && *s != '"' && *s != '\\' && *s != 't' && *s != 'r' && *s != 'b' && *s != 'f' && *s != 'u') return false;
    }
    return s[0] == '"' && s[1] == 0;
}

constexpr int variants(const char *t) {
    int n = 1;
    for (; *t; t++) n += *t == '|';
    return n;
}

constexpr bool without_braces(const char *t) {
    for (; *t; t++)
        if (*t == '{' || *t == '}') return false;
    return true;
}

/* Classes of arguments, as sizes of what functions that don't exist would return. */
template <int n> struct size { char bytes[n]; };
template <bool is_enum, class any> struct underlying { static const void *of(); };
template <class any> struct underlying<true, any> { static __underlying_type(any) of(); };
struct nothing {};
size<1> of(bool);
size<2> of(char);
size<14> of(unsigned char);
size<11> of(unsigned short);
size<12> of(unsigned);
size<sizeof(long) == 8 ? 13 : 12> of(unsigned long);
size<13> of(unsigned long long);
size<8> of(signed char);
size<5> of(short);
size<6> of(int);
size<sizeof(long) == 8 ? 7 : 6> of(long);
size<7> of(long long);
size<12> of(char32_t);
size<3> of(float);
size<4> of(double);
size<10> of(char *);
size<10> of(const char *);
size<21> of(unsigned char *);
size<21> of(const unsigned char *);
size<16> of(defmtl_istr);
size<20> of(defmtl_slice);
size<DEFMTL_WIDE_CLASS> of(defmtl_wide);
size<17> of(defmtl_value);
size<18> of(defmtl_list);
size<23> of(const void *);
size<23> of(nothing);
template <class any> auto of(const any &) -> decltype(of(underlying<__is_enum(any), any>::of()));
template <class any> size<1> extent(const any &);
template <unsigned n> size<n + 1> extent(const unsigned char (&)[n]);

template <class any> constexpr long long whole(const any &) { return DEFMTL_NEVER; }
constexpr long long whole(int x) { return x; }
constexpr long long whole(unsigned x) { return x; }
constexpr long long whole(long x) { return x; }
constexpr long long whole(unsigned long x) { return static_cast<long long>(x); }
constexpr long long whole(long long x) { return x; }

/* What SLICE, FMT and LIST give: bytes, a value of a type or of one derived from it, and values of just that type; and nothing where the pointer is
 * to another. */
template <class any> auto slice(const any *from, uint32_t n) {
    if constexpr (sizeof(any) == 1) return defmtl_make_slice(from, n);
    else return nothing{};
}
inline defmtl_slice slice(const void *from, uint32_t n) { return defmtl_make_slice(from, n); }
nothing slice(...);

template <class self> defmtl_value value(const defmtl_type *type, const volatile self *from) { return defmtl_make_value(type, const_cast<self *>(from)); }
template <class self> nothing value(const defmtl_type *, ...);

template <class, class> constexpr bool same = false;
template <class any> constexpr bool same<any, any> = true;
template <class self, class any> auto list(const defmtl_type *type, const volatile any *from, uint32_t n) {
    if constexpr (same<self, const any>) return defmtl_make_list(type, const_cast<const any *>(from), n);
    else return nothing{};
}
template <class self> nothing list(const defmtl_type *, ...);

constexpr unsigned class_of(int c) {
    constexpr unsigned all[] = {DEFMTL_OF_BOOL, DEFMTL_OF_CHAR, DEFMTL_OF_F32,  DEFMTL_OF_F64,    DEFMTL_OF_I16,  DEFMTL_OF_I32,   DEFMTL_OF_I64,
                                DEFMTL_OF_I8,   DEFMTL_OF_STR,  DEFMTL_OF_U16,  DEFMTL_OF_U32,    DEFMTL_OF_U64,  DEFMTL_OF_U8,    DEFMTL_OF_ISTR,
                                DEFMTL_OF_FORMAT, DEFMTL_OF_LIST, DEFMTL_OF_BYTES, DEFMTL_OF_RAW, DEFMTL_OF_WIDE};
    for (unsigned each : all)
        if (static_cast<int>(each & 31) == c) return each;
    return 0;
}

constexpr bool suits(int kind, int number, int mask, int its_class, int array, long long constant) {
    const unsigned of = class_of(its_class);
    return DEFMTL_SUITS(kind, number, mask, of, its_class, array, constant);
}
constexpr int first(int mask) { return DEFMTL_FIRST(mask); }
constexpr int op(int k, int mask) {
    int from = first(mask), wide = DEFMTL_WIDE(mask, from);
    return DEFMTL_OP_OF(k, wide);
}

template <class any> inline uint64_t wide(const any &x) { return static_cast<uint64_t>(x); }

/* What is handed on of an argument of the kind k, which is 0 where it doesn't suit. */
template <int k, int n, int from, int as, class any> inline auto arg(const any &a) {
    if constexpr (k == 0) return 0;
    else if constexpr (k == 3) return defmtl_float_bits(a);
    else if constexpr (k == 4) return defmtl_double_bits(a);
    else if constexpr (as == DEFMTL_B8) return wide(a) >> 8 * from;
    else if constexpr (k == 22) return static_cast<uint32_t>(wide(a) >> 8 * from);
    else if constexpr (k == 1) return static_cast<uint32_t>(a ? 1 : 0);
    else if constexpr (k == 16) return static_cast<uint32_t>(reinterpret_cast<uintptr_t>(a.entry));
    else if constexpr (k == 2 && sizeof(any) == 1) return static_cast<uint32_t>(static_cast<unsigned char>(a));
    else if constexpr (as <= DEFMTL_B4) return static_cast<uint32_t>(a);
    else if constexpr (k == 10) return static_cast<const char *>(a);
    else if constexpr (k > DEFMTL_K_BITS) return defmtl_make_slice(&a, 16);
    else if constexpr (k == 19) return defmtl_exactly(a, static_cast<uint32_t>(n));
    else if constexpr (k == 20 || k == 21) {
        if constexpr (sizeof(extent(*static_cast<const any *>(nullptr))) > 1) return defmtl_make_slice(a, sizeof(a));
        else return a;
    } else return a;
}

}

#define DEFMTL_READ_SPELLING(t)                                                                                        \
    constexpr bool defmtl_spelled = defmtl_text::spelled(DEFMTL_STRING(t));                                            \
    static_assert(defmtl_spelled, DEFMTL_TOLD_SPELLING);
#define DEFMTL_READ_ISTR(t) static_assert(defmtl_text::spelled(DEFMTL_STRING(t)), DEFMTL_TOLD_ISTR);
#define DEFMTL_READ_AT(t, n, v)                                                                                        \
    constexpr defmtl_text::text defmtl_parsed = defmtl_text::parse(t, v);                                              \
    static_assert(defmtl_parsed.fine, DEFMTL_TOLD_TEXT);                                                               \
    static_assert(!defmtl_parsed.fine || defmtl_parsed.count == n, DEFMTL_TOLD_NUMBER);
#define DEFMTL_READ(t, n) DEFMTL_READ_SPELLING(t) DEFMTL_READ_AT(t, n, -1)
#define DEFMTL_READ_VARIANT(t, n, k, j) DEFMTL_READ_AT(t, n, k)
#define DEFMTL_BARS(t) enum { defmtl_variants = defmtl_text::variants(t) };
#define DEFMTL_BARS_64(t) DEFMTL_BARS(t)
#define DEFMTL_NO_BRACES(t) defmtl_text::without_braces(t)
#define DEFMTL_CONSTANT(a) (__builtin_constant_p(defmtl_text::whole(a)) ? defmtl_text::whole(a) : DEFMTL_NEVER)
#define DEFMTL_CHECK(i, a)                                                                                             \
    constexpr bool defmtl_suits_##i =                                                                                  \
        !defmtl_parsed.fine || defmtl_parsed.count <= i ||                                                             \
        defmtl_text::suits(defmtl_parsed.kind[i], defmtl_parsed.number[i], defmtl_parsed.mask[i], (int)sizeof(defmtl_text::of(a)), \
                           (int)sizeof(defmtl_text::extent(a)) - 1, DEFMTL_CONSTANT(a));                               \
    static_assert(defmtl_suits_##i, DEFMTL_TOLD_KIND(i));                                                              \
    constexpr int defmtl_K##i = defmtl_suits_##i ? defmtl_parsed.kind[i] : 0, defmtl_N##i = defmtl_parsed.number[i],   \
                  defmtl_F##i = defmtl_text::first(defmtl_parsed.mask[i]),                                             \
                  defmtl_P##i = defmtl_text::op(defmtl_parsed.kind[i], defmtl_parsed.mask[i]);
#define DEFMTL_ARG(i, a) defmtl_text::arg<defmtl_K##i, defmtl_N##i, defmtl_F##i, defmtl_P##i>(a)
#define DEFMTL_ENDS_0
#define DEFMTL_ENDS_1
#define DEFMTL_ENDS_2
#define DEFMTL_ENDS_3
#define DEFMTL_ENDS_4
#define DEFMTL_ENDS_5
#define DEFMTL_ENDS_6
#define DEFMTL_ENDS_7
#define DEFMTL_ENDS_8
