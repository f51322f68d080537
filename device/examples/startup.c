/* What a Cortex-M needs before main: the vector table, and the memory of variables. */
#include <stdint.h>

extern uint32_t stack_end, data_from, data_start, data_end, bss_start, bss_end;
int main(void);
void handle_tick(void) __attribute__((weak)); /* the SysTick handler, where a firmware has one */

static void reset(void) {
    uint32_t *from = &data_from;
    for (uint32_t *to = &data_start; to < &data_end;) *to++ = *from++;
    for (uint32_t *to = &bss_start; to < &bss_end;) *to++ = 0;
    (void)main();
    for (;;) {
    }
}

static void fault(void) {
    for (;;) {
    }
}

static void tick(void) {
    if (handle_tick) handle_tick();
}

/* The initial stack, and then the handlers: reset, NMI and the faults, and the one of SysTick. */
struct vectors {
    uint32_t *stack;
    void (*handlers[15])(void);
};

extern const struct vectors vectors;
__attribute__((section(".vectors"), used)) const struct vectors vectors = {
    &stack_end, {reset, fault, fault, fault, fault, fault, 0, 0, 0, 0, fault, 0, 0, fault, tick}};
