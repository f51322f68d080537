/* The other file of two_ups.c. */
#include "defmtl.h"

uint64_t defmtl_now(void) { return 7; }
void log_aside(void);

int main(void) {
    defmtl_init(DEFMTL_MODE_SKIP);
    LOG_INFO("first {=u32}", defmtl_messages(0));
    log_aside();
    LOG_INFO("first {=u32}", defmtl_messages(0));
    for (;;) __asm__ volatile("wfi");
}
