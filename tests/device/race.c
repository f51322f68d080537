/* main and a SysTick handler log at once. MODE is the mode; with HOST the handler also plays the host, and takes so many bytes at
 * each tick into `capture`; COUNT messages are logged by main, a tick comes all RELOAD cycles. */
#include "defmtl.h"

#define REGISTER(address) (*(volatile uint32_t *)(address))

static volatile uint32_t ticks, now;
volatile uint32_t taken, ended, logged_by_handler;
uint8_t capture[24000];

uint64_t defmtl_now(void) { return ++now; }

static void host(uint32_t most) {
    uint32_t room = (uint32_t)sizeof capture - taken;
    taken += defmtl_drain(0, capture + taken, most < room ? most : room);
}

void handle_tick(void);
void handle_tick(void) {
    ticks++;
    if (HOST) host(HOST);
    if (ticks % 2 == 0) {
        logged_by_handler++;
        LOG_WARN("tick {=u32}", ticks);
    }
}

int main(void) {
    static const uint8_t digits[] = "0123456789";
    defmtl_init(MODE);
    REGISTER(0xE000E014) = RELOAD;
    REGISTER(0xE000E018) = 0;
    REGISTER(0xE000E010) = 7;
    for (uint32_t k = 0; k < COUNT; k++) LOG_INFO("main {=u32} {=str} {=[u8]}", k, "a text that takes a while", SLICE(digits, k % 11));
    REGISTER(0xE000E010) = 0;
    for (int k = 0; HOST && k < 100; k++) host(1000);
    LOG_PRINTLN("done, {=u32} dropped, {=u32} of the handler", defmtl_dropped(0), logged_by_handler);
    if (HOST) host(1000);
    ended = 1;
    for (;;) __asm__ volatile("wfi");
}
