/* Of FreeRTOS' task.h what ports/freertos.h and a recipe use, beside the stand-in FreeRTOS.h. */
#define taskSCHEDULER_RUNNING ((BaseType_t)2)
static inline BaseType_t xTaskGetSchedulerState(void) { return 1; }
static inline void vTaskDelay(TickType_t ticks) { (void)ticks; }
static inline TickType_t xTaskGetTickCountFromISR(void) { return 3; }
