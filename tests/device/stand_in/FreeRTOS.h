/* Of FreeRTOS.h and portmacro.h what ports/freertos.h uses, with their types, for an emulated device without FreeRTOS. */
#include <stdint.h>
typedef long BaseType_t;
typedef unsigned long UBaseType_t;
typedef uint32_t TickType_t;
static inline uint32_t stand_in_mask(uint32_t to) {
    uint32_t was;
    __asm__ volatile("mrs %0, basepri\n\tmsr basepri, %1\n\tisb" : "=&r"(was) : "r"(to) : "memory");
    return was;
}
#define portSET_INTERRUPT_MASK_FROM_ISR() stand_in_mask(0x40)
#define portCLEAR_INTERRUPT_MASK_FROM_ISR(was) (void)stand_in_mask(was)
static inline BaseType_t xPortIsInsideInterrupt(void) {
    uint32_t handler;
    __asm__ volatile("mrs %0, ipsr" : "=r"(handler));
    return handler != 0;
}
