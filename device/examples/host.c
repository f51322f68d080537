/* A process on a host that logs: two threads, and the frames in a file that the first argument names. What a host prints of it:
 *
 *   make host && out/host frames.bin && defmtl decode --table out/host < frames.bin */
#include "defmtl.h"

#include <pthread.h>
#include <stdio.h>
#include <time.h>

uint64_t defmtl_now(void) {
    struct timespec now;
    (void)clock_gettime(CLOCK_MONOTONIC, &now);
    return (uint64_t)now.tv_sec * 1000000u + (uint64_t)now.tv_nsec / 1000u;
}

static void *count(void *from) {
    const char *name = from;
    for (uint32_t k = 0; k < 1000; k++) LOG_INFO("{=str} counts {=u32}", name, k);
    return NULL;
}

int main(int words, char **word) {
    static char names[2][4] = {"one", "two"};
    uint8_t bytes[256];
    pthread_t threads[2];
    FILE *to = words == 2 ? fopen(word[1], "wb") : NULL;
    if (!to) return 2;
    defmtl_init(DEFMTL_MODE_SKIP);
    for (int k = 0; k < 2; k++) {
        if (pthread_create(&threads[k], NULL, count, names[k]) != 0) return 1;
    }
    for (int k = 0; k < 2; k++) {
        for (uint32_t n; (n = defmtl_drain(0, bytes, sizeof bytes)) > 0;) (void)fwrite(bytes, 1, n, to);
        (void)pthread_join(threads[k], NULL);
    }
    for (uint32_t n; (n = defmtl_drain(0, bytes, sizeof bytes)) > 0;) (void)fwrite(bytes, 1, n, to);
    LOG_PRINTLN("{=u32} of {=u32} were dropped", defmtl_dropped(0), defmtl_messages(0));
    for (uint32_t n; (n = defmtl_drain(0, bytes, sizeof bytes)) > 0;) (void)fwrite(bytes, 1, n, to);
    return fclose(to) == 0 ? 0 : 1;
}
