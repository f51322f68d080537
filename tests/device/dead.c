/* Statements in code that never runs, which a compiler drops at each level or at some; and the lines that are due. In C and C++. */
#include "host.h"

#include <stdlib.h>

static const bool verbose = false;
enum { LEVEL = 0 };
#define CHECKED(condition)                                                                                             \
    do {                                                                                                               \
        if (!(condition)) LOG_PRINTLN("dead in a macro");                                                              \
    } while (0)

struct point {
    int16_t x, y;
};
DEFMTL_FORMAT(struct point, point, "({=i16}, {=i16})", self->x, self->y)

__attribute__((unused)) static inline void never(void) { LOG_PRINTLN("dead in a function that nobody calls"); }
static inline int limited(int v) {
    if (v > 10) {
        LOG_PRINTLN("limited {=i32}", v);                                                     //= limited 20
        return 10;
    }
    return v;
}
static int helped(int level) {
    if (level > 2) LOG_PRINTLN("dead in a function that is called once {=i32}", level);
    return level;
}
static void job(int n) {
    for (int i = 0; i < n; i++) LOG_PRINTLN("dead in a loop {=i32}", i);
}
static const char *name_of(int kind) {
    switch (kind) {
    case 0: return "name";
    default: LOG_PRINTLN("dead in a switch"); return "?";
    }
}
static uint8_t early(uint8_t x) {
    return x;
    LOG_PRINTLN("dead behind return {=u8}", x);
}
#ifdef __cplusplus
template <int n> void chosen() {
    if constexpr (n > 2) LOG_PRINTLN("dead where a template chooses");
    if (n > 2) LOG_PRINTLN("dead in a template {=i32}", n);
}
#endif

static void all(void) {
    const struct point place = {1, 2};
    const bool on = true;
    uint8_t byte = 3;
    (void)limited(20);
    LOG_PRINTLN("alive {=u8}", 1);                                                            //= alive 1
    if (0) LOG_PRINTLN("dead");
    if (0) LOG_PRINTLN("dead {=u8} {=?}", byte, FMT(point, &place));
    if (sizeof(int) != 4) LOG_PRINTLN("dead {=u8}", 2);
    if (LEVEL) LOG_PRINTLN("dead");
    if (verbose) LOG_PRINTLN("dead");
    if (!on) LOG_PRINTLN("dead {=u8}", byte);
    else LOG_PRINTLN("on");                                                                   //= on
    for (; 0;) LOG_PRINTLN("dead {=u8}", 2);
    switch (3) {
    case 1: LOG_PRINTLN("dead"); break;
    default: break;
    }
    CHECKED(1 == 1);
    goto end;
    LOG_PRINTLN("dead behind goto");
end:
    if (0) LOG_PRINTLN("dead {=istr}", ISTR("dead"));
    LOG_PRINTLN("{=istr} {=istr}", on ? ISTR("fast") : ISTR("slow"), 0 ? ISTR("left") : ISTR("right")); //= fast right
    job(0);
    LOG_PRINTLN("{=str} {=u8} {=i32} {=i32} {=i32}", name_of(0), early(byte), helped(1), limited(5), limited(6)); //= name 3 1 5 6
#ifdef __cplusplus
    chosen<2>();
#endif
    if (byte == 3) return;
    _Exit(1);
    LOG_PRINTLN("dead behind _Exit");
}
RUN(all)
