/* Of Arduino.h what a recipe uses, with Arduino's types, for an emulated device without Arduino: its serial port is the emulator's. */
#include <stddef.h>
#include <stdint.h>
extern "C" unsigned long micros(void);
void setup();
void loop();
struct SerialPort {
    void begin(unsigned long) {}
    int availableForWrite() { return 8; }
    size_t write(uint8_t byte) { return *reinterpret_cast<volatile uint32_t *>(0x4000C000) = byte, 1; }
};
static SerialPort Serial;
