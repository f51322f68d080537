/* Two up-buffers: one blocks nobody and is read by a host, into the other one file logs with a number of its own. */
#define DEFMTL_UP 1
#include "defmtl.h"

static uint8_t memory[256];

void log_aside(void);
void log_aside(void) {
    if (!defmtl_add_buffer(1, "aside", memory, sizeof memory, DEFMTL_MODE_SKIP) || defmtl_add_buffer(2, "none", memory, sizeof memory, 0)) return;
    LOG_INFO("aside {=u32}", defmtl_messages(1));
    LOG_INFO("aside {=u32}", defmtl_messages(1));
}
