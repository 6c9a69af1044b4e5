/* Stands between a wrapper and the library, for library_wrappers.py: counts the traces of held tasks that are asked for, and prints their
   number in the end. The linker leads the calls here, by --wrap. */
#include "sas.h"
#include <stdio.h>

static int calls = 0;

enum sas_number __real_sas_task_trace(sas_task *task, const uint8_t *plan, size_t plan_length,
                                      uint8_t *room, size_t room_length, size_t *size);

enum sas_number __wrap_sas_task_trace(sas_task *task, const uint8_t *plan, size_t plan_length,
                                      uint8_t *room, size_t room_length, size_t *size) {
    calls += 1;
    return __real_sas_task_trace(task, plan, plan_length, room, room_length, size);
}

__attribute__((destructor)) static void tell(void) {
    printf("%d\n", calls);
}
