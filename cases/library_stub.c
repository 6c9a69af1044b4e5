/* Stands in for the library, for library.py: each of its calls returns the number that STUB says, and no answer. So a wrapper shows
   what it makes of a number that the library returns too seldom. At SAS_ROOM_TOO_SHORT the answer has 2^40 bytes, and a room of more than
   1000 bytes is one that the library has no memory for. */
#include "sas.h"
#include <stdlib.h>

static enum sas_number number(size_t room_length, size_t *size) {
    const enum sas_number it = (enum sas_number)atoi(getenv("STUB"));
    *size = it == SAS_ROOM_TOO_SHORT ? (size_t)1 << 40 : 0;
    return it == SAS_ROOM_TOO_SHORT && room_length > 1000 ? SAS_OUT_OF_MEMORY : it;
}

#define OVER_ONE(NAME) \
    enum sas_number NAME(const uint8_t *file, size_t file_length, uint8_t *room, size_t room_length, size_t *size) { \
        (void)file, (void)file_length, (void)room; \
        return number(room_length, size); \
    }
#define OVER_TWO(NAME) \
    enum sas_number NAME(const uint8_t *task, size_t task_length, const uint8_t *plan, size_t plan_length, \
                  uint8_t *room, size_t room_length, size_t *size) { \
        (void)task, (void)task_length, (void)plan, (void)plan_length, (void)room; \
        return number(room_length, size); \
    }
#define OVER_HELD(NAME) \
    enum sas_number NAME(sas_task *held, const uint8_t *file, size_t file_length, uint8_t *room, size_t room_length, size_t *size) { \
        (void)held, (void)file, (void)file_length, (void)room; \
        return number(room_length, size); \
    }

OVER_TWO(sas_plan)
OVER_TWO(sas_plan_why)
OVER_TWO(sas_trace)
OVER_ONE(sas_check)
OVER_ONE(sas_check_why)
OVER_ONE(sas_mutex)
OVER_ONE(sas_mutex_why)
OVER_ONE(sas_show)
OVER_ONE(sas_print)
OVER_ONE(sas_steps)
OVER_HELD(sas_task_read)
OVER_HELD(sas_task_plan)
OVER_HELD(sas_task_plan_why)
OVER_HELD(sas_task_trace)

enum sas_number sas_task_plan_operators(sas_task *held, const uint32_t *operators, size_t count, uint64_t cost,
                                        uint8_t *room, size_t room_length, size_t *size) {
    (void)held, (void)operators, (void)count, (void)cost, (void)room;
    return number(room_length, size);
}

#define OVER_RUN(NAME, ROOM) \
    enum sas_number NAME(sas_task *held, const sas_run *run, ROOM *room, size_t room_length, size_t *size) { \
        (void)held, (void)run, (void)room; \
        return number(room_length, size); \
    }

OVER_RUN(sas_task_run, uint8_t)
OVER_RUN(sas_task_run_trace, uint8_t)
OVER_RUN(sas_task_run_state, uint32_t)

const char *sas_version(void) {
    return SAS_VERSION;
}

void sas_task_free(sas_task *held) {
    (void)held;
}
