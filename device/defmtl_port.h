/* The port: what differs from firmware to firmware. Each setting can be given to the compiler, for all files alike
 * (-DDEFMTL_RING=4096); or write a port file, name it (-DDEFMTL_PORT_FILE='"my_port.h"'), and define settings there in front of an
 * include of this one, as the files in ports/ do with the four functions. */
#ifndef DEFMTL_PORT_H
#define DEFMTL_PORT_H

/* ---- settings */

#ifndef DEFMTL_PROFILE
#define DEFMTL_PROFILE 1 /* 2: each message carries its number, and the host tells where messages are missing */
#endif
#ifndef DEFMTL_RING
#define DEFMTL_RING 1024 /* bytes of the up-buffer 0 */
#endif
#ifndef DEFMTL_MESSAGE
#define DEFMTL_MESSAGE 128 /* most bytes of a message: 2 for its index, 2 for its number in profile 2, the stamp, the arguments */
#endif
#ifndef DEFMTL_STAMP
#define DEFMTL_STAMP "{=u64:us}" /* how the host prints defmtl_now(): {=u64}, {=u32} or {=u16} and a hint; "" is no stamp */
#endif
#ifndef DEFMTL_UP_BUFFERS
#define DEFMTL_UP_BUFFERS 1 /* up-buffers in the control block; defmtl_add_buffer() gives those above 0 their memory */
#endif
#ifndef DEFMTL_TRIES
#define DEFMTL_TRIES 3 /* frames that are made with interrupts on, before one is made with them off */
#endif

/* ---- what defmtl.c calls: a lock, a barrier, and a wait */

#if defined(DEFMTL_PORT_FUNCTIONS) && !defined(DEFMTL_OWN_FUNCTIONS) /* a port file of yours may define all four itself */

#if defined(__arm__) && defined(__ARM_ARCH_PROFILE) && __ARM_ARCH_PROFILE == 'M'

/* Nobody else logs between these two: interrupts are off. With DEFMTL_BASEPRI, a value of that register such as 0x40, only
 * those of that priority and below it are; handlers above must not log then. Cortex-M0 and M0+ have no BASEPRI. */
static inline uint32_t defmtl_port_lock(void) {
    uint32_t was;
#ifdef DEFMTL_BASEPRI
    __asm__ volatile("mrs %0, basepri\n\tmsr basepri_max, %1\n\tisb" : "=&r"(was) : "r"(DEFMTL_BASEPRI) : "memory");
#else
    __asm__ volatile("mrs %0, primask\n\tcpsid i" : "=r"(was) : : "memory");
#endif
    return was;
}

static inline void defmtl_port_unlock(uint32_t was) {
#ifdef DEFMTL_BASEPRI
    __asm__ volatile("msr basepri, %0" : : "r"(was) : "memory");
#else
    __asm__ volatile("msr primask, %0" : : "r"(was) : "memory");
#endif
}

/* What was written before is in memory before what is written behind. */
static inline void defmtl_port_barrier(void) { __asm__ volatile("dmb" : : : "memory"); }

/* Called without the lock where the mode is to block and there is no room. False: this caller doesn't wait, and its message
 * is dropped. A handler, which may keep away the one who takes the bytes, doesn't, nor does who has interrupts off. */
static inline int defmtl_port_wait(void) {
    uint32_t handler, masked;
    __asm__ volatile("mrs %0, ipsr\n\tmrs %1, primask" : "=r"(handler), "=r"(masked) : : "memory");
    return handler == 0 && masked == 0;
}

#else /* a process on a host, whose threads may all log */

#include <pthread.h>
#include <sched.h>

static pthread_mutex_t defmtl_port_mutex = PTHREAD_MUTEX_INITIALIZER;

static inline uint32_t defmtl_port_lock(void) {
    (void)pthread_mutex_lock(&defmtl_port_mutex);
    return 0;
}

static inline void defmtl_port_unlock(uint32_t was) {
    (void)was;
    (void)pthread_mutex_unlock(&defmtl_port_mutex);
}

static inline void defmtl_port_barrier(void) { __sync_synchronize(); }

static inline int defmtl_port_wait(void) {
    (void)sched_yield();
    return 1;
}

#endif
#endif
#endif
