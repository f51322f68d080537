/* Deferred logging for a device, in C11 and C++17, by GCC and Clang.
 *
 *   LOG_INFO("hello");
 *   LOG_WARN("speed {=u8:#04x} at {=u32}", speed, place);
 *
 * A call sends the index of its text and the arguments' bytes; the text itself stays in the ELF file, where a host reads it.
 * The compiler checks at every level of optimization that the arguments are those that the text asks for.
 * README.md beside this file says how to begin; defmtl_port.h has the settings; compile defmtl.c with your firmware. */
#ifndef DEFMTL_H
#define DEFMTL_H

#include <stdbool.h>
#include <stdint.h>

#ifdef DEFMTL_PORT_FILE
#include DEFMTL_PORT_FILE /* your own copy of defmtl_port.h: -DDEFMTL_PORT_FILE='"my_port.h"' */
#else
#include "defmtl_port.h"
#endif

#pragma GCC system_header /* the checks compute with string literals at compile time, which is an extension */

/* Settings of one file, in front of the include. */
#ifndef DEFMTL_PACKAGE
#define DEFMTL_PACKAGE "firmware" /* the package that the host's rules for what is shown ask for */
#endif
#ifndef DEFMTL_FLOOR
#define DEFMTL_FLOOR 0 /* messages below this level are checked and not compiled: 0 trace, 1 debug, 2 info, 3 warn, 4 error, 5 off */
#endif
#ifndef DEFMTL_UP
#define DEFMTL_UP 0 /* the up-buffer that this file logs to */
#endif
#ifndef DEFMTL_UNIT
#define DEFMTL_UNIT file /* a word of this file's own: by g++ with -flto statements' names for the assembler have it */
#endif

#ifdef __cplusplus
#define DEFMTL_ASSERT static_assert
extern "C" {
#else
#define DEFMTL_ASSERT _Static_assert
#endif

/* ---- the control block of SEGGER RTT */

struct defmtl_channel {
    const char *name;
    uint8_t *buffer;
    uint32_t size, write, read, flags; /* flags: the mode in bits 0 and 1, which a host may change while the device logs */
};

struct defmtl_block {
    char id[16];
    uint32_t up_buffers, down_buffers;
    struct defmtl_channel up[DEFMTL_UP_BUFFERS];
};

extern volatile struct defmtl_block _SEGGER_RTT;

/* ---- what you supply */

/* The time of a message, in the unit that DEFMTL_STAMP names (microseconds where it isn't set). It must not go back. It is
 * called with and without the lock, up to DEFMTL_TRIES + 1 times a message, and must not log. */
uint64_t defmtl_now(void);

/* ---- what you call */

/* Modes: what is done with a frame that has no room in the ring.
 * Skip: it is dropped as a whole, and nobody ever waits. Trim: its end is cut, which the host tells as a fault, and nobody ever
 * waits. Block: the caller waits until a host has taken bytes, but not in a handler, nor for a frame longer than the ring. */
#define DEFMTL_MODE_SKIP 0u
#define DEFMTL_MODE_TRIM 1u
#define DEFMTL_MODE_BLOCK 2u

/* Makes the control block ready. Call it once, before the first message. An unknown mode is skip. */
void defmtl_init(uint32_t mode);

/* Gives an up-buffer its memory of `size` bytes (8 to 2,147,483,647), of which it holds one less. False: there is no such
 * up-buffer (DEFMTL_UP_BUFFERS), or size or mode are out of range. Call it before anybody logs to it. */
int defmtl_add_buffer(uint32_t up, const char *name, uint8_t *memory, uint32_t size, uint32_t mode);

/* Takes at most `most` bytes out of an up-buffer, as a host would, to send them over a serial port; how many there were. One
 * caller at a time, and no debugger that reads the same up-buffer. */
uint32_t defmtl_drain(uint32_t up, uint8_t *to, uint32_t most);

/* Messages that were logged to an up-buffer, dropped ones too; and those that were not sent as a whole, since there was no room
 * or since they had more than DEFMTL_MESSAGE bytes. Both begin anew at 4,294,967,296. */
uint32_t defmtl_messages(uint32_t up);
uint32_t defmtl_dropped(uint32_t up);

/* ---- what the macros use */

struct defmtl_frame;

struct defmtl_type {
    const char *entry;
    uint32_t size;
    void (*body)(struct defmtl_frame *, const void *);
};
struct defmtl_slice {
    const void *from;
    uint32_t count;
};
struct defmtl_wide {
    uint64_t low, high;
};
struct defmtl_value {
    const struct defmtl_type *type;
    const void *from;
};
struct defmtl_list {
    const struct defmtl_type *type;
    const void *from;
    uint32_t count;
};
struct defmtl_istr {
    const char *entry;
};

void defmtl_log(const char *entry, uint32_t ops, ...);
void defmtl_log_up(uint32_t up, const char *entry, uint32_t ops, ...);
void defmtl_args(struct defmtl_frame *f, uint32_t ops, ...);
void defmtl_variant(struct defmtl_frame *f, uint32_t variant, uint32_t variants);

static inline struct defmtl_slice defmtl_make_slice(const void *from, uint32_t n) {
    struct defmtl_slice slice = {from, n};
    return slice;
}
static inline struct defmtl_wide defmtl_make_wide(uint64_t high, uint64_t low) {
    struct defmtl_wide wide = {low, high};
    return wide;
}
static inline struct defmtl_value defmtl_make_value(const struct defmtl_type *type, const void *from) {
    struct defmtl_value value = {type, from};
    return value;
}
static inline struct defmtl_list defmtl_make_list(const struct defmtl_type *type, const void *from, uint32_t n) {
    struct defmtl_list list = {type, from, n};
    return list;
}
/* An array of Format values whose number isn't the text's has no type, and its message is dropped. */
static inline struct defmtl_list defmtl_exactly(struct defmtl_list list, uint32_t n) {
    if (list.count != n) list.type = 0;
    return list;
}
static inline uint32_t defmtl_float_bits(float x) {
    uint32_t bits;
    __builtin_memcpy(&bits, &x, 4);
    return bits;
}
static inline uint64_t defmtl_double_bits(double x) {
    uint64_t bits;
    __builtin_memcpy(&bits, &x, 8);
    return bits;
}

#ifdef __cplusplus
}
#endif

#include "defmtl_kinds.h"
#include "defmtl_entry.h"
#ifdef __cplusplus
#include "defmtl_check_cpp.h"
#else
#include "defmtl_check_c.h"
#endif
#include "defmtl_call.h"

#endif
