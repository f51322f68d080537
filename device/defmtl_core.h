/* The core of the device's side: bytes into a frame of rzCOBS, frames into a ring, and bytes out of it.
 *
 * Nothing stands here but plain C of <stdint.h>: no assembler, no volatile, no variable arguments. Each function has a
 * contract in ACSL behind its comment, and tests/device-proof.sh proves them all with Frama-C. A user includes defmtl.h.
 *
 * Lengths and offsets are in bytes. DEFMTL_MESSAGE is the most bytes of a message (defmtl_port.h sets it). */
#ifndef DEFMTL_CORE_H
#define DEFMTL_CORE_H

#include <stdint.h>

#ifndef DEFMTL_MESSAGE
#define DEFMTL_MESSAGE 128
#endif

/* What is done with each byte stands in its loops, since a call there would take as long as the work; the loops stand once. */
#ifdef __FRAMAC__
#define DEFMTL_INLINE static inline
#define DEFMTL_ONCE static
#else
#define DEFMTL_INLINE static inline __attribute__((always_inline))
#define DEFMTL_ONCE static __attribute__((noinline))
#endif

/* The most bytes of a frame. A block of 134 bytes without a zero takes one byte more, and no other full block does; the
 * last block adds one byte at most, and a zero stands at each end. */
#define DEFMTL_FRAME (DEFMTL_MESSAGE + DEFMTL_MESSAGE / 134 + 3)

/* What is known of a frame that grows. */
struct defmtl_numbers {
    uint32_t done;     /* bytes of the message so far, or DEFMTL_MESSAGE + 1 where it was too long */
    uint32_t stored;   /* bytes in the frame's code */
    uint32_t gathered; /* bytes of the message in the open block, at most 133 */
    uint32_t zeros;    /* which of the open block's first seven bytes are zero, a bit each */
};

struct defmtl_frame {
    struct defmtl_numbers numbers;
    uint8_t code[DEFMTL_FRAME];
};

/*@ predicate bits_ok(integer gathered, integer zeros) =
      0 <= zeros <= 127 && (gathered >= 7 ==> zeros == 0) &&
      (gathered == 0 ==> zeros < 1) && (gathered == 1 ==> zeros < 2) && (gathered == 2 ==> zeros < 4) &&
      (gathered == 3 ==> zeros < 8) && (gathered == 4 ==> zeros < 16) && (gathered == 5 ==> zeros < 32) &&
      (gathered == 6 ==> zeros < 64);

    // A message that isn't too long: the last line bounds the code by the bytes it stands for.
    predicate growing(struct defmtl_numbers n) =
      n.done <= DEFMTL_MESSAGE && n.gathered <= 133 && n.gathered <= n.done && 1 <= n.stored &&
      bits_ok(n.gathered, n.zeros) && 134 * (n.stored + (n.zeros != 0 ? 1 : 0)) <= 134 + 135 * n.done - n.gathered;

    // Behind the zero in front no byte of the code is zero, so that a host finds where frames end.
    predicate without_zero(uint8_t *code, integer stored) = \forall integer k; 1 <= k < stored ==> code[k] != 0;

    predicate frame_ok(struct defmtl_frame *f) =
      \valid(f) && (f->numbers.done == DEFMTL_MESSAGE + 1 || (growing(f->numbers) && without_zero(&f->code[0], f->numbers.stored)));

    // What a call that adds n bytes says of the number of bytes.
    predicate added(integer before, integer n, integer after) =
      (before + n <= DEFMTL_MESSAGE ==> after == before + n) &&
      (before + n > DEFMTL_MESSAGE && n > 0 ==> after == DEFMTL_MESSAGE + 1) &&
      (before > DEFMTL_MESSAGE ==> after == before);
*/

/* Begins a frame with the zero in front. */
/*@ requires \valid(f);
    assigns f->code[0], f->numbers;
    ensures frame_ok(f) && f->numbers.done == 0 && f->numbers.stored == 1 && f->numbers.gathered == 0;
    ensures f->code[0] == 0;
*/
static inline void defmtl_frame_begin(struct defmtl_frame *f) {
    f->numbers.done = 0;
    f->numbers.stored = 1;
    f->numbers.gathered = 0;
    f->numbers.zeros = 0;
    f->code[0] = 0;
}

/* Marks a message as too long: it is dropped as a whole. */
/*@ requires \valid(f);
    assigns f->numbers.done;
    ensures frame_ok(f) && f->numbers.done == DEFMTL_MESSAGE + 1;
*/
static inline void defmtl_too_long(struct defmtl_frame *f) { f->numbers.done = DEFMTL_MESSAGE + 1; }

/* Whether n bytes more are still a message; where not, it is marked as too long. */
/*@ requires frame_ok(f);
    assigns f->numbers.done;
    ensures frame_ok(f);
    ensures \result != 0 <==> \old(f->numbers.done) + n <= DEFMTL_MESSAGE;
    ensures \result != 0 ==> f->numbers.done == \old(f->numbers.done);
    ensures \result == 0 ==> f->numbers.done == DEFMTL_MESSAGE + 1;
*/
static inline int defmtl_fits(struct defmtl_frame *f, uint32_t n) {
    if (f->numbers.done <= DEFMTL_MESSAGE && n <= DEFMTL_MESSAGE - f->numbers.done) return 1;
    defmtl_too_long(f);
    return 0;
}

/* Ends the open block with its last byte. */
/*@ requires \valid(n) && n->stored < DEFMTL_FRAME && \valid(code + (0 .. DEFMTL_FRAME - 1)) && 0 < last <= 255;
    requires \separated(n, code + (0 .. DEFMTL_FRAME - 1));
    assigns code[n->stored], n->stored, n->gathered, n->zeros;
    ensures n->stored == \old(n->stored) + 1 && n->gathered == 0 && n->zeros == 0;
    ensures code[\old(n->stored)] == last;
*/
DEFMTL_INLINE void defmtl_close_block(struct defmtl_numbers *n, uint8_t *code, uint32_t last) {
    code[n->stored++] = (uint8_t)last;
    n->gathered = 0;
    n->zeros = 0;
}

/* Adds one byte of a message that has room for it. */
/*@ requires \valid(n) && growing(*n) && n->done < DEFMTL_MESSAGE && \valid(code + (0 .. DEFMTL_FRAME - 1));
    requires \separated(n, code + (0 .. DEFMTL_FRAME - 1)) && without_zero(code, n->stored);
    assigns *n, code[0 .. DEFMTL_FRAME - 1];
    ensures without_zero(code, n->stored);
    ensures growing(*n) && n->done == \old(n->done) + 1 && n->stored >= \old(n->stored);
    ensures \forall integer k; 0 <= k < \old(n->stored) ==> code[k] == \old(code[k]);
*/
DEFMTL_INLINE void defmtl_add(struct defmtl_numbers *n, uint8_t *code, uint8_t byte) {
    static const uint8_t bit[7] = {1, 2, 4, 8, 16, 32, 64}; /* the provers take a sum, and no bit operation */
    n->done++;
    if (byte != 0) {
        code[n->stored++] = byte;
        //@ assert without_zero(code, n->stored);
        n->gathered++;
    } else if (n->gathered < 7) {
        n->zeros += bit[n->gathered];
        n->gathered++;
    } else {
        defmtl_close_block(n, code, 0x80 + (n->gathered - 7)); /* seven or more bytes, then this zero */
        //@ assert without_zero(code, n->stored);
        return;
    }
    //@ assert without_zero(code, n->stored);
    if (n->gathered == 7 && n->zeros != 0) defmtl_close_block(n, code, n->zeros);
    //@ assert without_zero(code, n->stored);
    if (n->gathered == 134) defmtl_close_block(n, code, 0xff);
}

/* Adds n bytes, or marks the message as too long. */
/*@ requires frame_ok(f) && (n == 0 || \valid_read(from + (0 .. n - 1))) && \separated(f, from + (0 .. n - 1));
    assigns f->code[0 .. DEFMTL_FRAME - 1], f->numbers;
    ensures frame_ok(f) && added(\old(f->numbers.done), n, f->numbers.done);
*/
DEFMTL_ONCE void defmtl_bytes(struct defmtl_frame *f, const uint8_t *from, uint32_t n) {
    if (!defmtl_fits(f, n)) return;
    struct defmtl_numbers numbers = f->numbers; /* a copy, which the compiler keeps in registers */
    /*@ loop invariant 0 <= k <= n && growing(numbers) && numbers.done == \at(f->numbers.done, Pre) + k;
        loop invariant without_zero(&f->code[0], numbers.stored);
        loop assigns k, numbers, f->code[0 .. DEFMTL_FRAME - 1];
        loop variant n - k;
    */
    for (uint32_t k = 0; k < n; k++) defmtl_add(&numbers, f->code, from[k]);
    f->numbers = numbers;
}

/* Adds the n lowest bytes of a number, the lowest first; n is at most 4. */
/*@ requires frame_ok(f) && n <= 4;
    assigns f->code[0 .. DEFMTL_FRAME - 1], f->numbers;
    ensures frame_ok(f) && added(\old(f->numbers.done), n, f->numbers.done);
*/
DEFMTL_ONCE void defmtl_word(struct defmtl_frame *f, uint32_t value, uint32_t n) {
    if (!defmtl_fits(f, n)) return;
    struct defmtl_numbers numbers = f->numbers;
    /*@ loop invariant 0 <= k <= n && growing(numbers) && numbers.done == \at(f->numbers.done, Pre) + k;
        loop invariant without_zero(&f->code[0], numbers.stored);
        loop assigns k, value, numbers, f->code[0 .. DEFMTL_FRAME - 1];
        loop variant n - k;
    */
    for (uint32_t k = 0; k < n; k++) {
        defmtl_add(&numbers, f->code, (uint8_t)(value % 256));
        value /= 256;
    }
    f->numbers = numbers;
}

/* Adds the eight bytes of a number, the lowest first. */
/*@ requires frame_ok(f);
    assigns f->code[0 .. DEFMTL_FRAME - 1], f->numbers;
    ensures frame_ok(f) && added(\old(f->numbers.done), 8, f->numbers.done);
*/
static inline void defmtl_long(struct defmtl_frame *f, uint64_t value) {
    if (!defmtl_fits(f, 8)) return;
    defmtl_word(f, (uint32_t)(value % 0x100000000u), 4);
    defmtl_word(f, (uint32_t)(value / 0x100000000u), 4);
}

/* The bytes of a text in front of its zero, and no more than a message has and one. */
/*@ requires \valid_read(text + (0 .. DEFMTL_MESSAGE)) ||
             (\exists integer z; 0 <= z <= DEFMTL_MESSAGE && text[z] == 0 && \valid_read(text + (0 .. z)));
    assigns \nothing;
    ensures \result <= DEFMTL_MESSAGE + 1;
    ensures \forall integer k; 0 <= k < \result ==> text[k] != 0;
    ensures \result <= DEFMTL_MESSAGE ==> text[\result] == 0;
*/
static inline uint32_t defmtl_length(const char *text) {
    uint32_t n = 0;
    /*@ loop invariant 0 <= n <= DEFMTL_MESSAGE + 1;
        loop invariant \forall integer k; 0 <= k < n ==> text[k] != 0;
        loop assigns n;
        loop variant DEFMTL_MESSAGE + 1 - n;
    */
    while (n <= DEFMTL_MESSAGE && text[n] != 0) n++;
    return n;
}

/* Adds a number of bytes in four bytes, and then these bytes: a text or a slice. */
/*@ requires frame_ok(f) && (n == 0 || \valid_read(from + (0 .. n - 1))) && \separated(f, from + (0 .. n - 1));
    assigns f->code[0 .. DEFMTL_FRAME - 1], f->numbers;
    ensures frame_ok(f) && added(\old(f->numbers.done), n + 4, f->numbers.done);
*/
static inline void defmtl_counted(struct defmtl_frame *f, const uint8_t *from, uint32_t n) {
    defmtl_word(f, n, 4);
    defmtl_bytes(f, from, n);
}

/* Adds the byte of a variant's number; a number that isn't below `variants` marks the message as too long. */
/*@ requires frame_ok(f) && variants <= 255;
    assigns f->code[0 .. DEFMTL_FRAME - 1], f->numbers;
    ensures frame_ok(f);
    ensures variant < variants ==> added(\old(f->numbers.done), 1, f->numbers.done);
    ensures variant >= variants ==> f->numbers.done == DEFMTL_MESSAGE + 1;
*/
static inline void defmtl_chosen(struct defmtl_frame *f, uint32_t variant, uint32_t variants) {
    if (variant < variants) defmtl_word(f, variant, 1);
    else defmtl_too_long(f);
}

/* Ends a frame with its last block and the zero behind. The length of the frame, or 0 where the message was too long. */
/*@ requires frame_ok(f);
    assigns f->code[0 .. DEFMTL_FRAME - 1], f->numbers;
    ensures \result <= DEFMTL_FRAME;
    ensures \old(f->numbers.done) <= DEFMTL_MESSAGE ==>
        \result == f->numbers.stored && f->code[\result - 1] == 0 &&
        2 <= \result <= \old(f->numbers.done) + \old(f->numbers.done) / 134 + 3 && without_zero(&f->code[0], \result - 1);
    ensures \old(f->numbers.done) > DEFMTL_MESSAGE ==> \result == 0;
*/
static uint32_t defmtl_frame_end(struct defmtl_frame *f) {
    static const uint8_t missing[7] = {0x7f, 0x7e, 0x7c, 0x78, 0x70, 0x60, 0x40};
    struct defmtl_numbers *n = &f->numbers;
    if (n->done > DEFMTL_MESSAGE) return 0;
    if (n->gathered >= 7) defmtl_close_block(n, f->code, 0x80 + (n->gathered - 7));
    else if (n->gathered > 0) defmtl_close_block(n, f->code, n->zeros + missing[n->gathered]);
    f->code[n->stored++] = 0;
    return n->stored;
}

#include "defmtl_ring.h"

#endif
