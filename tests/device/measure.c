/* How long statements take and how long interrupts are off. Time is read from SysTick, which the emulator
 * lets run with the instructions (-icount). */
#include "defmtl.h"

#define REGISTER(address) (*(volatile uint32_t *)(address))
#define CLOCK REGISTER(0xE000E018)

volatile uint32_t locked_from, longest_lock, ten_numbers, ten_texts, ended;

uint64_t defmtl_now(void) { return 123456789; }

static void numbers(void) { LOG_INFO("speed {=u8:#04x} at {=u32}", 5, 1000); }
static void text(void) { LOG_INFO("speed {=u8} at {=u32} {=str}", 5, 1000, "a text of twenty let"); }

static uint32_t ten(void (*statement)(void)) {
    uint32_t from = CLOCK;
    for (int k = 0; k < 10; k++) statement();
    return (from - CLOCK) & 0xffffff;
}

int main(void) {
    defmtl_init(DEFMTL_MODE_SKIP);
    REGISTER(0xE000E014) = 0xffffff;
    CLOCK = 0;
    REGISTER(0xE000E010) = 5;
    (void)ten(numbers);
    ten_numbers = ten(numbers);
    ten_texts = ten(text);
    ended = 1;
    for (;;) __asm__ volatile("wfi");
}
