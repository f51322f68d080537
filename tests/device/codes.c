/* The frames of very many messages, read back by a decoder of its own after docs/FORMATS.md, "Codes and blocks": all patterns of zeros up to
 * 16 bytes, no zero and a zero at each place up to 500 bytes, and random ones. It prints how many messages there were. */
#define DEFMTL_MESSAGE 500
#include "defmtl_core.h"

#include <stdio.h>
#include <string.h>

static uint32_t tried;

/* What a code of n bytes stands for, into the end of `to`; the bytes, or -1 where it is no code. */
static int decode(const uint8_t *code, uint32_t n, uint8_t to[2000]) {
    uint32_t at = n, got = 0;
    while (at > 0) {
        uint32_t c = code[--at], stored = c < 128 ? 0 : c < 255 ? c - 128 + 7 : 134;
        if (c == 0) return -1;
        for (uint32_t k = 0; c < 128 && k < 7; k++) stored += !(c >> k & 1);
        if (stored > at) return -1;
        at -= stored;
        uint8_t block[135];
        uint32_t size = 0, next = at;
        if (c < 128) {
            for (uint32_t k = 0; k < 7; k++) block[size++] = c >> k & 1 ? 0 : code[next++];
        } else {
            while (size < stored) block[size++] = code[next++];
            if (c < 255) block[size++] = 0;
        }
        got += size;
        memcpy(to + 2000 - got, block, size);
    }
    return (int)got;
}

/* Whether the frame of a message stands for it and at most six zeros, and has the size it may have. */
static int right(const uint8_t *message, uint32_t n) {
    static struct defmtl_frame f;
    uint8_t told[2000];
    uint32_t half = n / 2;
    tried++;
    defmtl_frame_begin(&f);
    defmtl_bytes(&f, message, half);
    for (uint32_t k = half; k < n; k++) defmtl_word(&f, message[k], 1);
    uint32_t size = defmtl_frame_end(&f);
    if (size < 2 || size > n + n / 134 + 3 || f.code[0] != 0 || f.code[size - 1] != 0 || memchr(f.code + 1, 0, size - 2)) return 0;
    int got = decode(f.code + 1, size - 2, told);
    if (got < (int)n || got > (int)n + 6 || memcmp(told + 2000 - got, message, n) != 0) return 0;
    for (int k = (int)n; k < got; k++)
        if (told[2000 - got + k] != 0) return 0;
    return 1;
}

int main(void) {
    uint8_t message[500];
    uint32_t random = 1;
    for (uint32_t n = 0; n <= 16; n++) {
        for (uint32_t zeros = 0; zeros < 1u << n; zeros++) {
            for (uint32_t k = 0; k < n; k++) message[k] = zeros >> k & 1 ? 0 : (uint8_t)(k + 1);
            if (!right(message, n)) return printf("wrong: %u bytes, zeros %x\n", n, zeros), 1;
        }
    }
    for (uint32_t n = 1; n <= 500; n++) {
        for (uint32_t zero = 0; zero <= n; zero++) {
            for (uint32_t k = 0; k < n; k++) message[k] = k == zero ? 0 : (uint8_t)(k % 255 + 1);
            if (!right(message, n)) return printf("wrong: %u bytes, a zero at %u\n", n, zero), 1;
        }
    }
    for (uint32_t round = 0; round < 100000; round++) {
        uint32_t n = (random = random * 1664525 + 1013904223) >> 8 & 255, often = random >> 20 & 15;
        for (uint32_t k = 0; k < n; k++) {
            random = random * 1664525 + 1013904223;
            message[k] = (random >> 16 & 15) < often ? 0 : (uint8_t)(random >> 24);
        }
        if (!right(message, n)) return printf("wrong: random message %u\n", round), 1;
    }
    return printf("%u\n", tried) < 0;
}
