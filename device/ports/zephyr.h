/* The port for Zephyr on one processor: -DDEFMTL_PORT_FILE='"ports/zephyr.h"'. With several processors take a k_spinlock in place
 * of irq_lock. Zephyr's own module for SEGGER RTT has a control block of the same name: leave CONFIG_USE_SEGGER_RTT out. */
#ifdef DEFMTL_PORT_FUNCTIONS
#define DEFMTL_OWN_FUNCTIONS
#include <stdint.h>
#include <zephyr/kernel.h>

static inline uint32_t defmtl_port_lock(void) { return irq_lock(); }
static inline void defmtl_port_unlock(uint32_t was) { irq_unlock(was); }
static inline void defmtl_port_barrier(void) { __sync_synchronize(); }

/* A thread waits, and lets others of its priority run. */
static inline int defmtl_port_wait(void) {
    if (k_is_in_isr()) return 0;
    k_yield();
    return 1;
}
#endif
#include "../defmtl_port.h"
