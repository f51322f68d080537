/* Deferred logging, the one file to compile into a firmware. What is proved is in defmtl_core.h; here are the control block,
 * the walk over a call's arguments, and the lock round what all writers share. */
#define DEFMTL_PORT_FUNCTIONS
#ifdef __cplusplus
#error "defmtl: compile defmtl.c as C11, and link it with your files of C++"
#endif
#include "defmtl.h"
#include "defmtl_core.h"

#include <stdarg.h>

DEFMTL_ASSERT(DEFMTL_PROFILE == 1 || DEFMTL_PROFILE == 2, "defmtl: DEFMTL_PROFILE is 1 or 2");
DEFMTL_ASSERT(DEFMTL_RING >= 8 && DEFMTL_RING <= 0x7fffffff, "defmtl: DEFMTL_RING is too small or too large");
DEFMTL_ASSERT(DEFMTL_MESSAGE >= 12 && DEFMTL_MESSAGE <= 2000, "defmtl: DEFMTL_MESSAGE is from 12 to 2000");
DEFMTL_ASSERT(DEFMTL_UP_BUFFERS >= 1 && DEFMTL_UP_BUFFERS <= 16, "defmtl: DEFMTL_UP_BUFFERS is from 1 to 16");

volatile struct defmtl_block _SEGGER_RTT;
static uint8_t defmtl_ring[DEFMTL_RING];
static struct defmtl_up defmtl_ups[DEFMTL_UP_BUFFERS];

/* A field that others write too, read once. */
static inline uint32_t defmtl_once(const uint32_t *from) { return *(const volatile uint32_t *)from; }

/* ---- arguments */

/* The address of a string's symbol is its index. */
static uint32_t defmtl_index(const char *entry) { return (uint32_t)(uintptr_t)entry & 0xffff; }

void defmtl_variant(struct defmtl_frame *f, uint32_t variant, uint32_t variants) { defmtl_chosen(f, variant, variants); }

static void defmtl_items(struct defmtl_frame *f, struct defmtl_list list) {
    const uint8_t *item = (const uint8_t *)list.from;
    if (list.count == 0) return;
    if (!list.type) {
        defmtl_too_long(f); /* an array whose number of items isn't the text's */
        return;
    }
    defmtl_word(f, defmtl_index(list.type->entry), 2);
    for (; list.count > 0 && f->numbers.done <= DEFMTL_MESSAGE; list.count--, item += list.type->size) list.type->body(f, item);
}

/* Adds each argument as its four bits of ops say, the lowest first. */
static void defmtl_each(struct defmtl_frame *f, uint32_t ops, va_list *args) {
    for (; ops != 0; ops >>= 4) {
        switch (ops & 15) {
        case DEFMTL_B1: defmtl_word(f, va_arg(*args, uint32_t), 1); break;
        case DEFMTL_B2: defmtl_word(f, va_arg(*args, uint32_t), 2); break;
        case DEFMTL_B4: defmtl_word(f, va_arg(*args, uint32_t), 4); break;
        case DEFMTL_B8: defmtl_long(f, va_arg(*args, uint64_t)); break;
        case DEFMTL_TEXT: {
            const char *text = va_arg(*args, const char *);
            if (!text) text = "(null)";
            defmtl_counted(f, (const uint8_t *)text, defmtl_length(text));
            break;
        }
        case DEFMTL_BYTES: {
            struct defmtl_slice slice = va_arg(*args, struct defmtl_slice);
            defmtl_counted(f, (const uint8_t *)slice.from, slice.count);
            break;
        }
        case DEFMTL_RAW: {
            struct defmtl_slice slice = va_arg(*args, struct defmtl_slice);
            defmtl_bytes(f, (const uint8_t *)slice.from, slice.count);
            break;
        }
        case DEFMTL_VALUE: {
            struct defmtl_value value = va_arg(*args, struct defmtl_value);
            defmtl_word(f, defmtl_index(value.type->entry), 2);
            value.type->body(f, value.from);
            break;
        }
        default: {
            struct defmtl_list list = va_arg(*args, struct defmtl_list);
            if ((ops & 15) == DEFMTL_LIST) defmtl_word(f, list.count, 4);
            defmtl_items(f, list);
        }
        }
    }
}

void defmtl_args(struct defmtl_frame *f, uint32_t ops, ...) {
    va_list args;
    va_start(args, ops);
    defmtl_each(f, ops, &args);
    va_end(args);
}

/* ---- messages */

/* The stamp: its bytes are those of the kind in its text. */
static inline void defmtl_stamp(struct defmtl_frame *f) {
#ifndef DEFMTL_NO_STAMP
    DEFMTL_STAMP_READ(DEFMTL_STAMP)
    uint64_t now = defmtl_now();
    if ((int)defmtl_stamp_bytes == 8) defmtl_long(f, now);
    else defmtl_word(f, (uint32_t)now, (uint32_t)defmtl_stamp_bytes);
    DEFMTL_ENDS_1
#else
    (void)f;
#endif
}

/* Makes the frame without the lock, for the number that comes next, and with the lock asks whether it still does. Where
 * another message took it the frame is made anew, so numbers and stamps go up in what a host reads; at the last try the lock
 * is held from the number on. The copy into the ring is all that is always done with it. */
static void defmtl_send(uint32_t index_of_up, const char *entry, uint32_t ops, va_list *args) {
    struct defmtl_up *up = &defmtl_ups[index_of_up];
    volatile struct defmtl_channel *channel = &_SEGGER_RTT.up[index_of_up];
    struct defmtl_frame f;
    uint32_t tries = DEFMTL_TRIES, was = 0;
    int may_wait = 1;
    for (;;) {
        if (tries == 0) was = defmtl_port_lock();
        uint32_t number = defmtl_once(&up->messages);
        defmtl_frame_begin(&f);
        if (DEFMTL_PROFILE == 2) defmtl_word(&f, defmtl_index(entry) | number << 16, 4);
        else defmtl_word(&f, defmtl_index(entry), 2);
        defmtl_stamp(&f);
        if (ops != 0) {
            va_list again;
            va_copy(again, *args);
            defmtl_each(&f, ops, &again);
            va_end(again);
        }
        uint32_t n = defmtl_frame_end(&f);
        if (tries != 0) was = defmtl_port_lock();
        if (number != defmtl_once(&up->messages)) {
            defmtl_port_unlock(was);
            tries--;
            continue;
        }
        uint32_t sent = defmtl_commit(up, channel->read, channel->flags & 3, may_wait, f.code, n);
        defmtl_port_barrier(); /* the host sees the offset behind the bytes */
        channel->write = up->write;
        defmtl_port_unlock(was);
        if (sent) return;
        may_wait = defmtl_port_wait();
        tries = DEFMTL_TRIES;
    }
}

void defmtl_log(const char *entry, uint32_t ops, ...) {
    va_list args;
    va_start(args, ops);
    defmtl_send(0, entry, ops, &args);
    va_end(args);
}

#if DEFMTL_UP_BUFFERS > 1
void defmtl_log_up(uint32_t up, const char *entry, uint32_t ops, ...) {
    va_list args;
    if (up >= DEFMTL_UP_BUFFERS || !defmtl_ups[up].bytes) return;
    va_start(args, ops);
    defmtl_send(up, entry, ops, &args);
    va_end(args);
}
#endif

uint32_t defmtl_messages(uint32_t up) { return up < DEFMTL_UP_BUFFERS ? defmtl_once(&defmtl_ups[up].messages) : 0; }

uint32_t defmtl_dropped(uint32_t up) { return up < DEFMTL_UP_BUFFERS ? defmtl_once(&defmtl_ups[up].dropped) : 0; }

/* ---- the control block */

int defmtl_add_buffer(uint32_t up, const char *name, uint8_t *memory, uint32_t size, uint32_t mode) {
    if (up >= DEFMTL_UP_BUFFERS || size < 8 || size > 0x7fffffff || mode > DEFMTL_MODE_BLOCK) return 0;
    volatile struct defmtl_channel *channel = &_SEGGER_RTT.up[up];
    uint32_t was = defmtl_port_lock();
    defmtl_ups[up].size = size;
    defmtl_ups[up].write = 0;
    defmtl_ups[up].bytes = memory;
    channel->size = 0; /* a host that looks meanwhile finds no bytes */
    channel->name = name;
    channel->buffer = memory;
    channel->write = 0;
    channel->read = 0;
    channel->flags = mode;
    defmtl_port_barrier();
    channel->size = size;
    defmtl_port_unlock(was);
    return 1;
}

/* The ID is written last and from its end, so that no host finds a block that isn't ready, nor a copy of it in the flash. */
void defmtl_init(uint32_t mode) {
    static const char backwards[] = "TTR REGGES";
    (void)defmtl_add_buffer(0, "defmt", defmtl_ring, DEFMTL_RING, mode <= DEFMTL_MODE_BLOCK ? mode : DEFMTL_MODE_SKIP);
    _SEGGER_RTT.up_buffers = DEFMTL_UP_BUFFERS;
    _SEGGER_RTT.down_buffers = 0;
    defmtl_port_barrier();
    for (uint32_t k = 0; k < 10; k++) _SEGGER_RTT.id[9 - k] = backwards[k];
}

uint32_t defmtl_drain(uint32_t up, uint8_t *to, uint32_t most) {
    if (up >= DEFMTL_UP_BUFFERS || !defmtl_ups[up].bytes) return 0;
    volatile struct defmtl_channel *channel = &_SEGGER_RTT.up[up];
    uint32_t write = defmtl_once(&defmtl_ups[up].write), read = channel->read;
    defmtl_port_barrier(); /* the bytes are read behind the offset that tells of them */
    uint32_t n = defmtl_take(defmtl_ups[up].bytes, defmtl_ups[up].size, write, &read, to, most);
    defmtl_port_barrier(); /* and their place is given back behind them */
    channel->read = read;
    return n;
}
