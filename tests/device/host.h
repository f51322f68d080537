/* For a test that is one function: RUN(function) calls it, and writes its frames to the standard output. */
#include "defmtl.h"

#include <stdio.h>

#ifdef __cplusplus
extern "C"
#endif
uint64_t defmtl_now(void) { return 1500 + defmtl_messages(0); }

static void drain(void) {
    uint8_t taken[64];
    for (uint32_t n; (n = defmtl_drain(0, taken, sizeof taken)) > 0;) (void)fwrite(taken, 1, n, stdout);
}

#define RUN(function)                                                                                                  \
    int main(void) {                                                                                                   \
        defmtl_init(DEFMTL_MODE_SKIP);                                                                                 \
        function();                                                                                                    \
        drain();                                                                                                       \
        return 0;                                                                                                      \
    }
