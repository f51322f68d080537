/* Statements of C in macros, inline functions, a header's code and loops, floors, and several up-buffers; and the lines that are due.
 * Below the floor nothing is evaluated. */
#define DEFMTL_FLOOR 3
#define DEFMTL_PACKAGE "forms"
#include "host.h"

/* By Clang a statement has to stand once, so there the second one is another. */
#ifdef __clang__
#define TWICE(x) x; LOG_PRINTLN("in a macro; twice")
#else
#define TWICE(x) x; x
#endif

enum state { IDLE, MOVING };
struct shape {
    enum state state;
    uint16_t r;
};
DEFMTL_ENUM(enum state, state, "idle|moving")
DEFMTL_UNION(struct shape, shape, self->state, "dot|ring {=u16}", (), (self->r))
DEFMTL_UNION(enum state, any_state, *self <= MOVING ? *self : 2, "idle|moving|state {=u32}", (), (), ((uint32_t)*self))
DEFMTL_FORMAT(uint16_t, word, "{=u16:#06x}", *self)

static inline uint8_t twice(uint8_t x) {
    LOG_PRINTLN("twice {=u8}", x);                                                            //= twice 4
    return (uint8_t)(2 * x);
}

static void all(void) {
    const struct shape shapes[2] = {{IDLE, 0}, {MOVING, 700}};
    const uint16_t words[2] = {1, 512};
    const struct shape wrong = {(enum state)2, 0};
    LOG_INFO("below the floor {=u8}", twice(5));
    LOG_PRINTLN("above {=u8}", twice(4));                                                     //= above 8
    TWICE(LOG_PRINTLN("in a macro; twice"));                                                         //= in a macro; twice
                                                                                              //= in a macro; twice
    for (uint8_t k = 0; k < 2; k++) LOG_PRINTLN("loop {=u8}", k);                             //= loop 0
                                                                                              //= loop 1
    LOG_PRINTLN("one"); LOG_PRINTLN("one"); LOG_WARN("two");                                  //= one
                                                                                              //= one
                                                                                              //= 0.001508 WARN  two
    LOG_PRINTLN("{=[?]} {=[?; 2]}", LIST(shape, shapes, 2), LIST(shape, shapes, 2));          //= [dot, ring 700] [dot, ring 700]
    LOG_PRINTLN("{=?} {=?}", FMT(any_state, &shapes[1].state), FMT(any_state, &wrong.state)); //= moving state 2
    LOG_PRINTLN("{=[?]} {=?}", LIST(word, words, 2), FMT(shape, &(struct shape){MOVING, 9})); //= [0x0001, 0x0200] ring 9
    LOG_PRINTLN("{=str} {=u8}", (const char *)0, 1);                                          //= (null) 1
    LOG_PRINTLN("no such variant {=?}", FMT(shape, &wrong));
    LOG_PRINTLN("not three {=[?; 3]}", LIST(shape, shapes, 2));
    LOG_PRINTLN("{=u32} of {=u32} dropped", defmtl_dropped(0), defmtl_messages(0));           //= 2 of 15 dropped
}
RUN(all)
