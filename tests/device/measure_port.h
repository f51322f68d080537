/* The port of Cortex-M, with the time taken from lock to unlock. */
#ifdef DEFMTL_PORT_FUNCTIONS
#define defmtl_port_lock defmtl_plain_lock
#define defmtl_port_unlock defmtl_plain_unlock
#endif
#include "defmtl_port.h"
#ifdef DEFMTL_PORT_FUNCTIONS
#undef defmtl_port_lock
#undef defmtl_port_unlock
extern volatile uint32_t locked_from, longest_lock;

static inline uint32_t defmtl_port_lock(void) {
    uint32_t was = defmtl_plain_lock();
    locked_from = *(volatile uint32_t *)0xE000E018;
    return was;
}

static inline void defmtl_port_unlock(uint32_t was) {
    uint32_t took = (locked_from - *(volatile uint32_t *)0xE000E018) & 0xffffff;
    if (took > longest_lock) longest_lock = took;
    defmtl_plain_unlock(was);
}
#endif
