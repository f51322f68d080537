// Statements where C++ has places for them: inline functions, templates, members, lambdas, loops, namespaces; and the lines that are due.
#include "host.h"

enum class state : uint8_t { idle, moving };
struct point {
    int16_t x, y;
};
DEFMTL_FORMAT(point, point, "({=i16}, {=i16})", self->x, self->y)
DEFMTL_ENUM(state, state, "idle|moving")

template <class T> void show(T x) { LOG_PRINTLN("template {=u32}", x); }                      //= template 7
                                                                                              //= template 8
inline uint8_t twice(uint8_t x) {
    LOG_PRINTLN("twice {=u8}", x);                                                            //= twice 4
    return static_cast<uint8_t>(2 * x);
}
struct motor {
    int16_t speed;
    void say() const { LOG_PRINTLN("motor {=i16}", speed); }                                  //= motor -4
};
namespace outer {
namespace {
template <class T> void within(T x) { LOG_PRINTLN("in namespaces {=u32}", x); }               //= in namespaces 5
                                                                                              //= in namespaces 6
void unnamed() { LOG_PRINTLN("in an unnamed namespace"); }                                    //= in an unnamed namespace
}
template <int n> struct box {
    void say() const {
        auto lambda = [] { LOG_PRINTLN("of a class template {=i32}", n); };                   //= of a class template 9
        lambda();
    }
};
}
static void all() {
    const point points[2] = {{1, -2}, {3, 4}};
    const state now = state::moving;
    show(uint32_t{7});
    show(uint8_t{8});
    auto lambda = [&](int k) { LOG_PRINTLN("lambda {=i32} {=u8}", k, twice(4)); };            //= lambda 3 8
    motor{-4}.say();
    lambda(3);
    for (uint8_t k = 0; k < 2; k++) LOG_PRINTLN("loop {=u8}", k);                             //= loop 0
                                                                                              //= loop 1
    LOG_PRINTLN("{=?} {=[?]} {=u8}", FMT(state, &now), LIST(point, points, 2), now);          //= moving [(1, -2), (3, 4)] 1
    LOG_PRINTLN("one"); LOG_PRINTLN("one");                                                    //= one
                                                                                              //= one
    outer::within(uint32_t{5});
    outer::within(uint8_t{6});
    outer::unnamed();
    outer::box<9>{}.say();
}
RUN(all)
