/* Statements and Format values. Included by defmtl.h alone, behind the checks, which supply
 *   DEFMTL_READ(text, n)  reads the text of n arguments, and of position i has how it is sent as defmtl_P0 and so on
 *   DEFMTL_CHECK(i, a)    whether the argument a suits position i
 *   DEFMTL_ARG(i, a)      what is handed on of it */

/* ---- arguments that are no plain values */

/* What is no literal, or points to another type than it should, is given to a statement as what is no argument: so the compiler tells at the
 * statement which argument is wrong. */
#ifdef __cplusplus
#define DEFMTL_SLICE(from, n) defmtl_text::slice(from, n)
#define DEFMTL_FMT(name, from) defmtl_text::value<name##_defmtl_self>(&name##_defmtl, from)
#define DEFMTL_LIST_OF(name, from, n) defmtl_text::list<name##_defmtl_self>(&name##_defmtl, from, n)
#else
#define DEFMTL_IF_TYPE(name, from, then) \
    __builtin_choose_expr(__builtin_types_compatible_p(__typeof__(*from), name##_defmtl_self), then, (void *)0)
#define DEFMTL_SLICE(from, n) __builtin_choose_expr(__extension__ sizeof(*from) == 1, defmtl_make_slice(from, n), (void *)0)
#define DEFMTL_FMT(name, from) DEFMTL_IF_TYPE(name, from, defmtl_make_value(&name##_defmtl, (const void *)from))
#define DEFMTL_LIST_OF(name, from, n) DEFMTL_IF_TYPE(name, from, defmtl_make_list(&name##_defmtl, (const void *)from, n))
#endif

/* Bytes at a place, for {=[u8]}. */
#define SLICE(from, n) DEFMTL_SLICE((from), (uint32_t)(n))
/* A number of 128 bits by its two halves, for {=u128} and {=i128}. */
#define WIDE(high, low) defmtl_make_wide((uint64_t)(high), (uint64_t)(low))
/* A value whose type was declared with DEFMTL_FORMAT, DEFMTL_ENUM or DEFMTL_UNION under this name, for {=?}. */
#define FMT(name, ...) DEFMTL_FMT(name, (__VA_ARGS__))
/* n such values that stand one behind the other, for {=[?]} and {=[?; N]}. */
#define LIST(name, from, n) DEFMTL_LIST_OF(name, (from), (uint32_t)(n))
/* A text that isn't sent but for its index, for {=istr}. In a function alone. */
#define ISTR(text) DEFMTL_ISTR(__COUNTER__, text)
#define DEFMTL_ISTR(n, text) DEFMTL_ISTR_(n, text)
#define DEFMTL_ISTR_(n, text)                                                                                          \
    __extension__({                                                                                                    \
        DEFMTL_READ_ISTR(text)                                                                                         \
        DEFMTL_ISTR_ENTRY(n, text)                                                                                     \
        struct defmtl_istr defmtl_interned = {DEFMTL_ISTR_INDEX(n)};                                                   \
        defmtl_interned;                                                                                               \
    })

/* ---- each of up to eight arguments */
#define DEFMTL_COUNT_(t, a, b, c, d, e, f, g, h, i1, i2, i3, i4, i5, i6, i7, i8, j1, j2, j3, j4, j5, j6, j7, j8, k1, k2, k3, k4, k5, k6, k7, k8, \
                      l1, l2, l3, l4, l5, l6, l7, l8, m1, m2, m3, m4, m5, m6, m7, m8, n, ...) n
#define DEFMTL_COUNT(...) \
    DEFMTL_COUNT_(__VA_ARGS__, MANY, MANY, MANY, MANY, MANY, MANY, MANY, MANY, MANY, MANY, MANY, MANY, MANY, MANY, MANY, MANY, MANY, MANY, MANY, MANY, \
                  MANY, MANY, MANY, MANY, MANY, MANY, MANY, MANY, MANY, MANY, MANY, MANY, MANY, MANY, MANY, MANY, MANY, MANY, MANY, MANY, \
                  8, 7, 6, 5, 4, 3, 2, 1, 0, ~)
#define DEFMTL_OP(i) ((uint32_t)defmtl_P##i << 4 * i)
#define DEFMTL_A(i, a) , DEFMTL_ARG(i, a)
#define DEFMTL_ALL_0(...)
#define DEFMTL_ALL_1(m, a) m(0, a)
#define DEFMTL_ALL_2(m, a, b) m(0, a) m(1, b)
#define DEFMTL_ALL_3(m, a, b, c) m(0, a) m(1, b) m(2, c)
#define DEFMTL_ALL_4(m, a, b, c, d) m(0, a) m(1, b) m(2, c) m(3, d)
#define DEFMTL_ALL_5(m, a, b, c, d, e) m(0, a) m(1, b) m(2, c) m(3, d) m(4, e)
#define DEFMTL_ALL_6(m, a, b, c, d, e, f) m(0, a) m(1, b) m(2, c) m(3, d) m(4, e) m(5, f)
#define DEFMTL_ALL_7(m, a, b, c, d, e, f, g) m(0, a) m(1, b) m(2, c) m(3, d) m(4, e) m(5, f) m(6, g)
#define DEFMTL_ALL_8(m, a, b, c, d, e, f, g, h) m(0, a) m(1, b) m(2, c) m(3, d) m(4, e) m(5, f) m(6, g) m(7, h)
#define DEFMTL_OPS_0 0u
#define DEFMTL_OPS_1 DEFMTL_OP(0)
#define DEFMTL_OPS_2 DEFMTL_OPS_1 | DEFMTL_OP(1)
#define DEFMTL_OPS_3 DEFMTL_OPS_2 | DEFMTL_OP(2)
#define DEFMTL_OPS_4 DEFMTL_OPS_3 | DEFMTL_OP(3)
#define DEFMTL_OPS_5 DEFMTL_OPS_4 | DEFMTL_OP(4)
#define DEFMTL_OPS_6 DEFMTL_OPS_5 | DEFMTL_OP(5)
#define DEFMTL_OPS_7 DEFMTL_OPS_6 | DEFMTL_OP(6)
#define DEFMTL_OPS_8 DEFMTL_OPS_7 | DEFMTL_OP(7)

/* ---- statements */
#if DEFMTL_UP == 0
#define DEFMTL_CALL defmtl_log(
#else
#define DEFMTL_CALL defmtl_log_up(DEFMTL_UP,
#endif
#define DEFMTL_LOG(n, tag, part, k, ...) DEFMTL_LOG_(n, tag, part, k, __VA_ARGS__)
#define DEFMTL_LOG_(n, tag, part, k, ...) DEFMTL_LOG_##k(n, tag, part, __VA_ARGS__)
#define DEFMTL_DO(k, n, tag, part, t, list, passed)                                                                    \
    do {                                                                                                               \
        DEFMTL_ENTRY(n, tag, part, t)                                                                                  \
        DEFMTL_READ(t, k)                                                                                              \
        DEFMTL_ALL_##k list                                                                                            \
        DEFMTL_CALL DEFMTL_INDEX_OF(n), DEFMTL_OPS_##k DEFMTL_ALL_##k passed);                                         \
        DEFMTL_ENDS_##k                                                                                                \
    } while (0)
/* What is muted is checked and calls nothing; its arguments aren't evaluated. */
#define DEFMTL_MUTE(k, ...) DEFMTL_MUTE_(k, __VA_ARGS__)
#define DEFMTL_MUTE_(k, ...) DEFMTL_MUTE_##k(__VA_ARGS__)
#define DEFMTL_UNDO(k, t, list, passed)                                                                                \
    do {                                                                                                               \
        if (0) {                                                                                                       \
            DEFMTL_READ(t, k)                                                                                          \
            DEFMTL_ALL_##k list                                                                                        \
            DEFMTL_CALL (const char *)0, DEFMTL_OPS_##k DEFMTL_ALL_##k passed);                                        \
            DEFMTL_ENDS_##k                                                                                            \
        }                                                                                                              \
    } while (0)
#define DEFMTL_LOG_0(n, tag, part, t) DEFMTL_DO(0, n, tag, part, t, (DEFMTL_CHECK), (DEFMTL_A))
#define DEFMTL_MUTE_0(t) DEFMTL_UNDO(0, t, (DEFMTL_CHECK), (DEFMTL_A))
#define DEFMTL_LOG_1(n, tag, part, t, ...) DEFMTL_DO(1, n, tag, part, t, (DEFMTL_CHECK, __VA_ARGS__), (DEFMTL_A, __VA_ARGS__))
#define DEFMTL_MUTE_1(t, ...) DEFMTL_UNDO(1, t, (DEFMTL_CHECK, __VA_ARGS__), (DEFMTL_A, __VA_ARGS__))
#define DEFMTL_LOG_2(n, tag, part, t, ...) DEFMTL_DO(2, n, tag, part, t, (DEFMTL_CHECK, __VA_ARGS__), (DEFMTL_A, __VA_ARGS__))
#define DEFMTL_MUTE_2(t, ...) DEFMTL_UNDO(2, t, (DEFMTL_CHECK, __VA_ARGS__), (DEFMTL_A, __VA_ARGS__))
#define DEFMTL_LOG_3(n, tag, part, t, ...) DEFMTL_DO(3, n, tag, part, t, (DEFMTL_CHECK, __VA_ARGS__), (DEFMTL_A, __VA_ARGS__))
#define DEFMTL_MUTE_3(t, ...) DEFMTL_UNDO(3, t, (DEFMTL_CHECK, __VA_ARGS__), (DEFMTL_A, __VA_ARGS__))
#define DEFMTL_LOG_4(n, tag, part, t, ...) DEFMTL_DO(4, n, tag, part, t, (DEFMTL_CHECK, __VA_ARGS__), (DEFMTL_A, __VA_ARGS__))
#define DEFMTL_MUTE_4(t, ...) DEFMTL_UNDO(4, t, (DEFMTL_CHECK, __VA_ARGS__), (DEFMTL_A, __VA_ARGS__))
#define DEFMTL_LOG_5(n, tag, part, t, ...) DEFMTL_DO(5, n, tag, part, t, (DEFMTL_CHECK, __VA_ARGS__), (DEFMTL_A, __VA_ARGS__))
#define DEFMTL_MUTE_5(t, ...) DEFMTL_UNDO(5, t, (DEFMTL_CHECK, __VA_ARGS__), (DEFMTL_A, __VA_ARGS__))
#define DEFMTL_LOG_6(n, tag, part, t, ...) DEFMTL_DO(6, n, tag, part, t, (DEFMTL_CHECK, __VA_ARGS__), (DEFMTL_A, __VA_ARGS__))
#define DEFMTL_MUTE_6(t, ...) DEFMTL_UNDO(6, t, (DEFMTL_CHECK, __VA_ARGS__), (DEFMTL_A, __VA_ARGS__))
#define DEFMTL_LOG_7(n, tag, part, t, ...) DEFMTL_DO(7, n, tag, part, t, (DEFMTL_CHECK, __VA_ARGS__), (DEFMTL_A, __VA_ARGS__))
#define DEFMTL_MUTE_7(t, ...) DEFMTL_UNDO(7, t, (DEFMTL_CHECK, __VA_ARGS__), (DEFMTL_A, __VA_ARGS__))
#define DEFMTL_LOG_8(n, tag, part, t, ...) DEFMTL_DO(8, n, tag, part, t, (DEFMTL_CHECK, __VA_ARGS__), (DEFMTL_A, __VA_ARGS__))
#define DEFMTL_MUTE_8(t, ...) DEFMTL_UNDO(8, t, (DEFMTL_CHECK, __VA_ARGS__), (DEFMTL_A, __VA_ARGS__))
#define DEFMTL_LOG_MANY(...) DEFMTL_ASSERT(0, DEFMTL_TOLD_MANY)
#define DEFMTL_MUTE_MANY(...) DEFMTL_ASSERT(0, DEFMTL_TOLD_MANY)

#define DEFMTL_SAY(tag, part, ...) DEFMTL_LOG(__COUNTER__, tag, part, DEFMTL_COUNT(__VA_ARGS__), __VA_ARGS__)
#define DEFMTL_QUIET(...) DEFMTL_MUTE(DEFMTL_COUNT(__VA_ARGS__), __VA_ARGS__)
#if DEFMTL_FLOOR <= 0
#define LOG_TRACE(...) DEFMTL_SAY("defmt_trace", "trace", __VA_ARGS__)
#else
#define LOG_TRACE(...) DEFMTL_QUIET(__VA_ARGS__)
#endif
#if DEFMTL_FLOOR <= 1
#define LOG_DEBUG(...) DEFMTL_SAY("defmt_debug", "debug", __VA_ARGS__)
#else
#define LOG_DEBUG(...) DEFMTL_QUIET(__VA_ARGS__)
#endif
#if DEFMTL_FLOOR <= 2
#define LOG_INFO(...) DEFMTL_SAY("defmt_info", "info", __VA_ARGS__)
#else
#define LOG_INFO(...) DEFMTL_QUIET(__VA_ARGS__)
#endif
#if DEFMTL_FLOOR <= 3
#define LOG_WARN(...) DEFMTL_SAY("defmt_warn", "warn", __VA_ARGS__)
#else
#define LOG_WARN(...) DEFMTL_QUIET(__VA_ARGS__)
#endif
#if DEFMTL_FLOOR <= 4
#define LOG_ERROR(...) DEFMTL_SAY("defmt_error", "error", __VA_ARGS__)
#else
#define LOG_ERROR(...) DEFMTL_QUIET(__VA_ARGS__)
#endif
#define LOG_PRINTLN(...) DEFMTL_SAY("defmt_println", "println", __VA_ARGS__) /* has no level, and no floor */

/* ---- Format values, declared once in a file, outside of functions. Within them `self` is the value's address.
 *   DEFMTL_FORMAT(struct point, point, "({=i16}, {=i16})", self->x, self->y)
 *   DEFMTL_ENUM(enum state, state, "Idle|Moving|Stopped")
 *   DEFMTL_UNION(struct shape, shape, self->kind, "Dot|Ring({=u16})|Box({=u16}, {=u16})", (), (self->r), (self->w, self->h))
 * The second word is the name by which FMT and LIST know the type. An enum's values and a union's kinds count from 0; a message
 * with another one is dropped. */
#define DEFMTL_TYPE(n, type, name, text)                                                                               \
    DEFMTL_STATIC(n, "defmt_derived", "derived", text)                                                                 \
    typedef const type name##_defmtl_self;                                                                             \
    static void name##_defmtl_body(struct defmtl_frame *defmtl_to, const void *defmtl_from);                           \
    static const struct defmtl_type name##_defmtl = {&defmtl_entry_##n, (uint32_t)sizeof(type), name##_defmtl_body};   \
    static void name##_defmtl_body(struct defmtl_frame *defmtl_to, const void *defmtl_from)
#define DEFMTL_SELF(name)                                                                                              \
    name##_defmtl_self *self = (name##_defmtl_self *)defmtl_from;                                                      \
    (void)name##_defmtl;                                                                                               \
    (void)self;
#define DEFMTL_PUT(t, k, v, j, ...) DEFMTL_PUT_##k(t, k, v, j, ##__VA_ARGS__)
#define DEFMTL_PUT_MANY(...) { DEFMTL_ASSERT(0, DEFMTL_TOLD_MANY); }
#define DEFMTL_PUT_0 DEFMTL_PUTS
#define DEFMTL_PUT_1 DEFMTL_PUTS
#define DEFMTL_PUT_2 DEFMTL_PUTS
#define DEFMTL_PUT_3 DEFMTL_PUTS
#define DEFMTL_PUT_4 DEFMTL_PUTS
#define DEFMTL_PUT_5 DEFMTL_PUTS
#define DEFMTL_PUT_6 DEFMTL_PUTS
#define DEFMTL_PUT_7 DEFMTL_PUTS
#define DEFMTL_PUT_8 DEFMTL_PUTS
#define DEFMTL_PUTS(t, k, v, j, ...)                                                                                   \
    {                                                                                                                  \
        DEFMTL_READ_VARIANT(t, k, v, j)                                                                                \
        DEFMTL_ALL_##k(DEFMTL_CHECK, ##__VA_ARGS__)                                                                    \
        defmtl_args(defmtl_to, DEFMTL_OPS_##k DEFMTL_ALL_##k(DEFMTL_A, ##__VA_ARGS__));                                \
        DEFMTL_ENDS_##k                                                                                                \
    }
#define DEFMTL_FORMAT(type, name, ...) DEFMTL_FORMAT_(__COUNTER__, type, name, DEFMTL_COUNT(__VA_ARGS__), __VA_ARGS__)
#define DEFMTL_FORMAT_(n, type, name, k, ...) DEFMTL_FORMAT__(n, type, name, k, __VA_ARGS__)
#define DEFMTL_FORMAT__(n, type, name, k, t, ...)                                                                      \
    DEFMTL_TYPE(n, type, name, t) {                                                                                    \
        DEFMTL_SELF(name)                                                                                              \
        DEFMTL_READ_SPELLING(t)                                                                                        \
        DEFMTL_BARS(t)                                                                                                 \
        DEFMTL_ASSERT(defmtl_variants == 1, DEFMTL_TOLD_TEXT);                                                         \
        DEFMTL_PUT(t, k, 0, s, ##__VA_ARGS__)                                                                          \
    }
#define DEFMTL_ENUM(type, name, text) DEFMTL_ENUM_(__COUNTER__, type, name, text)
#define DEFMTL_ENUM_(n, type, name, text) DEFMTL_ENUM__(n, type, name, text)
#define DEFMTL_ENUM__(n, type, name, t)                                                                                \
    DEFMTL_TYPE(n, type, name, t) {                                                                                    \
        DEFMTL_SELF(name)                                                                                              \
        DEFMTL_READ_SPELLING(t)                                                                                        \
        DEFMTL_BARS_64(t)                                                                                              \
        DEFMTL_ASSERT(defmtl_variants > 1, DEFMTL_TOLD_ENUM);                                                          \
        __extension__ enum { defmtl_plain = DEFMTL_NO_BRACES(t) };                                                     \
        DEFMTL_ASSERT(defmtl_plain, DEFMTL_TOLD_ENUM);                                                                 \
        defmtl_variant(defmtl_to, (uint32_t)*self, (uint32_t)defmtl_variants);                                         \
    }
#define DEFMTL_UNION(type, name, kind, text, ...)                                                                      \
    DEFMTL_UNION_(__COUNTER__, type, name, kind, text, DEFMTL_COUNT(~, __VA_ARGS__), __VA_ARGS__)
#define DEFMTL_UNION_(n, type, name, kind, text, m, ...) DEFMTL_UNION__(n, type, name, kind, text, m, __VA_ARGS__)
#define DEFMTL_UNION__(n, type, name, kind, t, m, ...)                                                                 \
    DEFMTL_TYPE(n, type, name, t) {                                                                                    \
        DEFMTL_SELF(name)                                                                                              \
        DEFMTL_READ_SPELLING(t)                                                                                        \
        DEFMTL_BARS(t)                                                                                                 \
        DEFMTL_ASSERT(defmtl_variants == m, DEFMTL_TOLD_VARIANTS);                                                     \
        uint32_t defmtl_kind = (uint32_t)(kind);                                                                       \
        defmtl_variant(defmtl_to, defmtl_kind, m);                                                                     \
        switch (defmtl_kind) {                                                                                         \
            DEFMTL_CASES_##m(t, __VA_ARGS__) default : break;                                                          \
        }                                                                                                              \
    }
#define DEFMTL_OPEN(...) __VA_ARGS__
#define DEFMTL_COUNT_LIST(...) DEFMTL_COUNT(~ __VA_OPT__(, ) __VA_ARGS__)
#define DEFMTL_CASE(t, v, j, list)                                                                                     \
    case v: DEFMTL_CASE_(t, DEFMTL_COUNT_LIST list, v, j, DEFMTL_OPEN list) break;
#define DEFMTL_CASE_(t, k, v, j, ...) DEFMTL_CASE__(t, k, v, j, __VA_ARGS__)
#define DEFMTL_CASE__(t, k, v, j, ...) DEFMTL_PUT(t, k, v, j, __VA_ARGS__)
#define DEFMTL_CASES_1(t, a) DEFMTL_CASE(t, 0, s, a)
#define DEFMTL_CASES_2(t, a, b) DEFMTL_CASE(t, 0, s, a) DEFMTL_CASE(t, 1, 0, b)
#define DEFMTL_CASES_3(t, a, b, c) DEFMTL_CASE(t, 0, s, a) DEFMTL_CASE(t, 1, 0, b) DEFMTL_CASE(t, 2, 1, c)
#define DEFMTL_CASES_4(t, a, b, c, d) DEFMTL_CASE(t, 0, s, a) DEFMTL_CASE(t, 1, 0, b) DEFMTL_CASE(t, 2, 1, c) DEFMTL_CASE(t, 3, 2, d)
#define DEFMTL_CASES_5(t, a, b, c, d, e) DEFMTL_CASE(t, 0, s, a) DEFMTL_CASE(t, 1, 0, b) DEFMTL_CASE(t, 2, 1, c) DEFMTL_CASE(t, 3, 2, d) DEFMTL_CASE(t, 4, 3, e)
#define DEFMTL_CASES_6(t, a, b, c, d, e, f) DEFMTL_CASE(t, 0, s, a) DEFMTL_CASE(t, 1, 0, b) DEFMTL_CASE(t, 2, 1, c) DEFMTL_CASE(t, 3, 2, d) DEFMTL_CASE(t, 4, 3, e) DEFMTL_CASE(t, 5, 4, f)
#define DEFMTL_CASES_7(t, a, b, c, d, e, f, g) DEFMTL_CASE(t, 0, s, a) DEFMTL_CASE(t, 1, 0, b) DEFMTL_CASE(t, 2, 1, c) DEFMTL_CASE(t, 3, 2, d) DEFMTL_CASE(t, 4, 3, e) DEFMTL_CASE(t, 5, 4, f) DEFMTL_CASE(t, 6, 5, g)
#define DEFMTL_CASES_8(t, a, b, c, d, e, f, g, h) DEFMTL_CASE(t, 0, s, a) DEFMTL_CASE(t, 1, 0, b) DEFMTL_CASE(t, 2, 1, c) DEFMTL_CASE(t, 3, 2, d) DEFMTL_CASE(t, 4, 3, e) DEFMTL_CASE(t, 5, 4, f) DEFMTL_CASE(t, 6, 5, g) DEFMTL_CASE(t, 7, 6, h)
