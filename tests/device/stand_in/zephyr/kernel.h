/* Of Zephyr's kernel.h what ports/zephyr.h and a recipe use, with Zephyr's types, for an emulated device without Zephyr. */
#include <stdbool.h>
#include <stdint.h>
static inline unsigned int irq_lock(void) {
    unsigned int was;
    __asm__ volatile("mrs %0, primask\n\tcpsid i" : "=r"(was) : : "memory");
    return was;
}
static inline void irq_unlock(unsigned int was) { __asm__ volatile("msr primask, %0" : : "r"(was) : "memory"); }
static inline bool k_is_in_isr(void) {
    uint32_t handler;
    __asm__ volatile("mrs %0, ipsr" : "=r"(handler));
    return handler != 0;
}
static inline void k_yield(void) {}
static inline int64_t k_uptime_ticks(void) { return 3; }
static inline uint64_t k_ticks_to_us_floor64(uint64_t ticks) { return ticks * 100; }
