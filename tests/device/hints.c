/* Dates, clocks, widths without a letter, and several bit fields of one argument; and the lines that are due with --full. */
#include "host.h"

struct tick {
    uint32_t seconds;
};
DEFMTL_FORMAT(struct tick, tick, "tick {=u32}", self->seconds)

static void all(void) {
    const uint32_t seconds = 951782400u;
    const uint64_t millis = 951782400007u, micros = 90061000002u;
    const uint8_t status = 0xde;
    const struct tick tick = {3661};
    LOG_PRINTLN("{=u32:iso8601s} {=u64:iso8601ms}", seconds, millis);                  //= 2000-02-29T00:00:00Z 2000-02-29T00:00:00.007Z
    LOG_PRINTLN("{=u32:ts} {=u32:tms} {=u64:tus}", 3661, 3661001, micros);             //= 01:01:01 01:01:01.001 1:01:01:01.000002
    LOG_PRINTLN("{=u32:08} {=i16:05} {=u8:0255}|{=u8:#010b}", 42, -7, 0, 5);           //= 00000042 -0007 ZEROS|0b00000101
    LOG_PRINTLN("{0=0..4:03} {0=4..8:#b} {0=7..8} of {0=0..8:#04x}", status);          //= 014 0b1101 1 of 0xde
    LOG_PRINTLN("{=?:ts}", FMT(tick, &tick));                                          //= tick 01:01:01
}
RUN(all)
