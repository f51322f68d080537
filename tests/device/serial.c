/* An emulated device that logs for ever, and sends its frames over its first serial port (UART0 of an LM3S6965). Floats are
 * left out: the host doesn't read them yet. */
#include "defmtl.h"

#define REGISTER(address) (*(volatile uint32_t *)(address))
#define UART_DATA REGISTER(0x4000C000)
#define UART_FLAGS REGISTER(0x4000C018)
#define UART_FULL 0x20u

uint64_t defmtl_now(void) { return 1000 * (uint64_t)defmtl_messages(0); }

static void send(void) {
    uint8_t byte;
    while (!(UART_FLAGS & UART_FULL) && defmtl_drain(0, &byte, 1) == 1) UART_DATA = byte;
}

int main(void) {
    defmtl_init(DEFMTL_MODE_SKIP);
    for (uint32_t k = 0;; k++) {
        LOG_INFO("round {=u32}", k);
        for (volatile uint32_t wait = 0; wait < 20000; wait++) send();
    }
}
