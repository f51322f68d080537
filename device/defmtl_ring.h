/* The second half of the core: frames into a ring, and bytes out of it. Included by defmtl_core.h alone; proved with it. */
#ifndef DEFMTL_RING_H
#define DEFMTL_RING_H

/* Copies n bytes. */
/*@ requires n == 0 || (\valid(to + (0 .. n - 1)) && \valid_read(from + (0 .. n - 1)));
    requires \separated(to + (0 .. n - 1), from + (0 .. n - 1));
    assigns to[0 .. n - 1];
    ensures \forall integer k; 0 <= k < n ==> to[k] == from[k];
*/
static inline void defmtl_copy(uint8_t *to, const uint8_t *from, uint32_t n) {
#ifdef __FRAMAC__
    /*@ loop invariant 0 <= k <= n;
        loop invariant \forall integer j; 0 <= j < k ==> to[j] == from[j];
        loop assigns k, to[0 .. n - 1];
        loop variant n - k;
    */
    for (uint32_t k = 0; k < n; k++) to[k] = from[k];
#else
    __builtin_memcpy(to, from, n); /* taken to do what the contract says */
#endif
}

/*@ // Places in a ring of `size` bytes: the one n behind w, the bytes that fit behind w in front of r, and what of n bytes is sent.
    logic integer behind(integer size, integer w, integer n) = w + n < size ? w + n : w + n - size;
    logic integer room(integer size, integer w, integer r) = r >= size ? 0 : r - w - 1 + (r <= w ? size : 0);
    logic integer share(integer size, integer w, integer r, integer mode, integer n) =
      n <= room(size, w, r) ? n : mode == 1 ? room(size, w, r) : 0;

    // The n bytes from w on, round the end, are those of `from`.
    predicate holds(uint8_t *ring, integer size, integer w, uint8_t *from, integer n) =
      (\forall integer k; 0 <= k < n && w + k < size ==> ring[w + k] == from[k]) &&
      (\forall integer k; 0 <= k < n && w + k >= size ==> ring[w + k - size] == from[k]);

    // The places of a ring that aren't among the n from w on.
    predicate beside(integer size, integer w, integer n, integer i) =
      0 <= i < size && !(w <= i < w + n) && !(i < w + n - size);
*/

/* The offset n bytes behind another one, round the ring's end. */
/*@ requires 0 < size <= 0x7fffffff && offset < size && n <= size;
    assigns \nothing;
    ensures \result < size && \result == behind(size, offset, n);
*/
static inline uint32_t defmtl_behind(uint32_t size, uint32_t offset, uint32_t n) {
    return n < size - offset ? offset + n : n - (size - offset);
}

/* Bytes that fit in front of the read offset. One out of range, which only a faulty host writes, gives no room. */
/*@ requires 0 < size <= 0x7fffffff && write < size;
    assigns \nothing;
    ensures \result < size && \result == room(size, write, read);
*/
static inline uint32_t defmtl_room(uint32_t size, uint32_t write, uint32_t read) {
    if (read >= size) return 0;
    return (read > write ? read - write : size - write + read) - 1;
}

/* Copies n bytes to the offset write and round the end; the new offset. */
/*@ requires 0 < size <= 0x7fffffff && write < size && n < size;
    requires \valid(ring + (0 .. size - 1)) && (n == 0 || \valid_read(from + (0 .. n - 1)));
    requires \separated(ring + (0 .. size - 1), from + (0 .. n - 1));
    assigns ring[0 .. size - 1];
    ensures \result < size && \result == behind(size, write, n);
    ensures holds(ring, size, write, from, n);
    ensures \forall integer i; beside(size, write, n, i) ==> ring[i] == \old(ring[i]);
*/
static inline uint32_t defmtl_put(uint8_t *ring, uint32_t size, uint32_t write, const uint8_t *from, uint32_t n) {
    uint32_t first = n < size - write ? n : size - write;
    defmtl_copy(ring + write, from, first);
    /*@ assert \forall integer k; 0 <= k < first ==> ring[write + k] == from[k]; */
    defmtl_copy(ring, from + first, n - first);
    /*@ assert \forall integer k; first <= k < n ==> ring[k - first] == from[k]; */
    return defmtl_behind(size, write, n);
}

/* Copies n bytes from the offset read on and round the end; the new offset. */
/*@ requires 0 < size <= 0x7fffffff && read < size && n < size;
    requires \valid_read(ring + (0 .. size - 1)) && (n == 0 || \valid(to + (0 .. n - 1)));
    requires \separated(ring + (0 .. size - 1), to + (0 .. n - 1));
    assigns to[0 .. n - 1];
    ensures \result < size && \result == behind(size, read, n);
    ensures holds(ring, size, read, to, n);
*/
static inline uint32_t defmtl_get(const uint8_t *ring, uint32_t size, uint32_t read, uint8_t *to, uint32_t n) {
    uint32_t first = n < size - read ? n : size - read;
    defmtl_copy(to, ring + read, first);
    /*@ assert \forall integer k; 0 <= k < first ==> to[k] == ring[read + k]; */
    defmtl_copy(to + first, ring, n - first);
    /*@ assert \forall integer k; first <= k < n ==> to[k] == ring[k - first]; */
    return defmtl_behind(size, read, n);
}

/* What is done with a frame that has no room as a whole: nothing is sent, its end is cut, or the caller waits. */
#define DEFMTL_MODE_SKIP 0u
#define DEFMTL_MODE_TRIM 1u
#define DEFMTL_MODE_BLOCK 2u
#define DEFMTL_LATER 0xffffffffu

/* How many bytes of a frame of n bytes are sent at once, or DEFMTL_LATER. No mode waits for a frame longer than the ring. */
/*@ requires 0 < size <= 0x7fffffff && write < size && n <= 0x7fffffff;
    assigns \nothing;
    ensures n > room(size, write, read) && mode == 2 && n < size ==> \result == 0xffffffff;
    ensures !(n > room(size, write, read) && mode == 2 && n < size) ==> \result == share(size, write, read, mode, n);
    ensures \result == 0xffffffff || (\result <= n && \result < size);
*/
static inline uint32_t defmtl_share(uint32_t size, uint32_t write, uint32_t read, uint32_t mode, uint32_t n) {
    uint32_t room = defmtl_room(size, write, read);
    if (n <= room) return n;
    if (mode == DEFMTL_MODE_TRIM) return room;
    return mode == DEFMTL_MODE_BLOCK && n < size ? DEFMTL_LATER : 0;
}

/* A ring and its counts, kept apart from the control block, so that nothing that a host writes leads a copy astray. */
struct defmtl_up {
    uint8_t *bytes;
    uint32_t size;     /* bytes of the ring; it holds one less */
    uint32_t write;    /* offset of the next byte */
    uint32_t messages; /* logged, dropped ones too */
    uint32_t dropped;  /* not sent as a whole */
};

/* Sends the n bytes of a frame, or those that the mode lets, and counts the message; n is 0 where it was too long. The answer
 * is 0, with nothing changed, where the caller has to wait for room and may. */
/*@ requires \valid(up) && 0 < up->size <= 0x7fffffff && up->write < up->size && \valid(up->bytes + (0 .. up->size - 1));
    requires n <= 0x7fffffff && (n == 0 || \valid_read(from + (0 .. n - 1)));
    requires \separated(up, up->bytes + (0 .. up->size - 1), from + (0 .. n - 1));
    assigns up->bytes[0 .. up->size - 1], up->write, up->messages, up->dropped;
    ensures up->write < up->size && (\result == 0 || \result == 1);
    ensures \result == 0 ==> may_wait != 0 && up->write == \old(up->write) && up->messages == \old(up->messages) &&
        up->dropped == \old(up->dropped) && \forall integer i; 0 <= i < up->size ==> up->bytes[i] == \old(up->bytes[i]);
    ensures \result == 1 ==> up->messages == (uint32_t)(\old(up->messages) + 1);
    ensures \let sent = share(up->size, \old(up->write), read, mode, n);
        \result == 1 ==> up->dropped == (uint32_t)(\old(up->dropped) + (n == 0 || sent < n ? 1 : 0));
    ensures \let sent = share(up->size, \old(up->write), read, mode, n);
        \result == 1 ==> up->write == behind(up->size, \old(up->write), sent);
    ensures \let sent = share(up->size, \old(up->write), read, mode, n);
        \result == 1 ==> holds(up->bytes, up->size, \old(up->write), from, sent);
    ensures \let sent = share(up->size, \old(up->write), read, mode, n);
        \result == 1 ==> \forall integer i; beside(up->size, \old(up->write), sent, i) ==> up->bytes[i] == \old(up->bytes[i]);
*/
static inline uint32_t defmtl_commit(struct defmtl_up *up, uint32_t read, uint32_t mode, int may_wait, const uint8_t *from,
                                     uint32_t n) {
    uint32_t sent = defmtl_share(up->size, up->write, read, mode, n);
    if (sent == DEFMTL_LATER) {
        if (may_wait) return 0;
        sent = 0;
    }
    up->messages++;
    if (n == 0 || sent < n) up->dropped++;
    if (sent > 0) up->write = defmtl_put(up->bytes, up->size, up->write, from, sent);
    return 1;
}

/* Takes at most `most` bytes out of a ring, and moves the read offset behind them; how many. An offset out of range is
 * taken for an empty ring. */
/*@ requires 0 < size <= 0x7fffffff && write < size && \valid(read) && \valid_read(ring + (0 .. size - 1));
    requires most == 0 || \valid(to + (0 .. most - 1));
    requires \separated(ring + (0 .. size - 1), to + (0 .. most - 1), read);
    assigns to[0 .. most - 1], *read;
    ensures *read < size && \result <= most && \result < size;
    ensures \let r = \old(*read) < size ? \old(*read) : write;
        \let waits = write - r + (r <= write ? 0 : size);
        \result == (waits <= most ? waits : most) && *read == behind(size, r, \result) && holds(ring, size, r, to, \result);
*/
static inline uint32_t defmtl_take(const uint8_t *ring, uint32_t size, uint32_t write, uint32_t *read, uint8_t *to,
                                   uint32_t most) {
    uint32_t at = *read < size ? *read : write;
    uint32_t waits = at <= write ? write - at : size - at + write;
    uint32_t n = waits <= most ? waits : most;
    *read = defmtl_get(ring, size, at, to, n);
    return n;
}

#endif
