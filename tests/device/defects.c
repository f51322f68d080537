/* A firmware that logs in the ways in which the one header that was here before failed: tests/device-defects.sh compiles it with
 * that header too. AT tells which way. */
#define DEFMTL_MEMORY /* that header's memory */
#include "defmtl.h"

#ifdef U32 /* that header's arguments */
#define TEXT(text) STR(text)
#define NUMBER(n) U32(n)
#define START() defmtl_init()
#else
#define TEXT(text) text
#define NUMBER(n) n
#define START() defmtl_init(DEFMTL_MODE_SKIP)
#endif
#define UP ((volatile struct defmtl_channel *)&_SEGGER_RTT.up)

volatile uint32_t stamps_with_interrupts_off, harmed, ended;
extern uint8_t behind_ring[], behind_ring_end[]; /* of the linker script: nobody writes there */

#ifdef __cplusplus
extern "C"
#endif
uint64_t defmtl_now(void) {
    uint32_t off;
    __asm__ volatile("mrs %0, primask" : "=r"(off));
    stamps_with_interrupts_off += off & 1;
    return 0;
}

int main(void) {
    START();
#if AT == 1
    LOG_INFO("speed {=u32}"); /* an argument is missing */
#elif AT == 2
    LOG_INFO("line {=u32}", NUMBER(1)); LOG_INFO("line {=u32}", NUMBER(2));
#elif AT == 3
    LOG_INFO("C++ {=u32}", NUMBER(3));
#elif AT == 4
    LOG_INFO("say \"yes\" \\ no");
#elif AT == 5
    LOG_INFO("five {=u32}", NUMBER(5));
#else
    UP->read = 0x40000000; /* a host that writes what it likes */
    LOG_INFO("{=str}", TEXT("a text that is longer than the ring by far, and by more than the ring's size"));
    for (uint8_t *at = behind_ring; at < behind_ring_end; at++) harmed += *at != 0;
#endif
    ended = 1;
    for (;;) __asm__ volatile("wfi");
}
