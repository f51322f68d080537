/* Floats, stamps and the bytes of a frame, which tests/device.sh compares with the bytes that are due. */
#include "host.h"

static void all(void) { LOG_INFO("{=f32} {=f64} {=f64}", 1.5f, -2.0, 0.5f); }
RUN(all)
