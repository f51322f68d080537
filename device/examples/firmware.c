/* A small firmware that logs: what a host prints of each message stands beside its call, behind '//='. */
#include "defmtl.h"

struct point {
    int16_t x, y;
};
enum state { IDLE, MOVING, STOPPED };
DEFMTL_FORMAT(struct point, point, "({=i16}, {=i16})", self->x, self->y)
DEFMTL_ENUM(enum state, state, "idle|moving|stopped")

/* A clock of this example's own, which goes 250 microseconds on with each message, so that every run prints the same. */
uint64_t defmtl_now(void) { return 250 * defmtl_messages(0); }

static void start(void) {
    LOG_INFO("boot");                                                        //= 0.000000 INFO  boot
    LOG_DEBUG("clock {=u32} Hz, retries {=u8}", 12000000, 0);                //= 0.000250 DEBUG clock 12000000 Hz, retries 0
    LOG_INFO("sensor {=str} is {=bool}", "bmp280", true);                    //= 0.000500 INFO  sensor bmp280 is true
}

static void measure(uint16_t status) {
    static const uint8_t frame[4] = {0xde, 0xad, 0x00, 0xef};
    LOG_TRACE("raw {=[u8; 4]:02x}", frame);                                  //= 0.000750 TRACE raw [de, ad, 00, ef]
    LOG_WARN("temperature {=i16} is above {=i16}", -12, -20);                //= 0.001000 WARN  temperature -12 is above -20
    LOG_ERROR("status {0=8..12:#06b} of {0=0..16:#06x}", status);            //= 0.001250 ERROR status 0b1010 of 0x0a05
    LOG_INFO("uptime {=u64:us} s", 1234567);                                 //= 0.001500 INFO  uptime 1.234567 s
}

/* An argument is evaluated in front of its message, so what it logs itself comes first. */
static uint16_t battery(void) {
    LOG_DEBUG("battery is read");                                            //= 0.001750 DEBUG battery is read
    return 3300;
}

static void move(const struct point *path, uint32_t count) {
    enum state state = MOVING;
    LOG_INFO("{=?} to {=?}", FMT(state, &state), FMT(point, &path[0]));      //= 0.002250 INFO  moving to (3, -4)
    LOG_INFO("path \"{=istr}\" {=[?]}", ISTR("home"), LIST(point, path, count)); //= 0.002500 INFO  path "home" [(3, -4), (0, 0)]
}

int main(void) {
    static const struct point path[2] = {{3, -4}, {0, 0}};
    defmtl_init(DEFMTL_MODE_SKIP);
    start();
    measure(0x0a05);
    LOG_INFO("battery at {=u16} mV", battery());                             //= 0.002000 INFO  battery at 3300 mV
    move(path, 2);
    LOG_PRINTLN("done, {=u32} messages dropped", defmtl_dropped(0));         //= done, 0 messages dropped
    for (;;) __asm__ volatile("wfi");
}
