/* One line: the stamp's unit and kind are settings. */
#include "host.h"

static void all(void) { LOG_INFO("stamped"); }
RUN(all)
