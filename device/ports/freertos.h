/* The port for FreeRTOS on a Cortex-M: -DDEFMTL_PORT_FILE='"ports/freertos.h"'. Tasks may log, and those handlers that may call
 * FreeRTOS: none of a priority above configMAX_SYSCALL_INTERRUPT_PRIORITY. It needs INCLUDE_xTaskGetSchedulerState. */
#ifdef DEFMTL_PORT_FUNCTIONS
#define DEFMTL_OWN_FUNCTIONS
#include <stdint.h>

#include "FreeRTOS.h"
#include "task.h"

static inline uint32_t defmtl_port_lock(void) { return (uint32_t)portSET_INTERRUPT_MASK_FROM_ISR(); }
static inline void defmtl_port_unlock(uint32_t was) { portCLEAR_INTERRUPT_MASK_FROM_ISR((UBaseType_t)was); }
static inline void defmtl_port_barrier(void) { __sync_synchronize(); }

/* A task waits for a tick, so that one of a lower priority may send what is there over a serial port. It doesn't wait in a
 * handler, nor in a critical section, nor before the scheduler runs: there its message is dropped. */
static inline int defmtl_port_wait(void) {
    uint32_t was = defmtl_port_lock();
    defmtl_port_unlock(was);
    if (was != 0 || xPortIsInsideInterrupt() || xTaskGetSchedulerState() != taskSCHEDULER_RUNNING) return 0;
    vTaskDelay(1);
    return 1;
}
#endif
#include "../defmtl_port.h"
