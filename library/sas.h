/* libsas: the answers of the program `sas`, about bytes in memory. No call opens a file or starts a process.

   A call takes its inputs, each as a pointer and a length, and a buffer for its answer, the room. It returns one of the
   numbers below. The answer is the text that the program prints, to the byte. docs/LIBRARY.md has the promises.

   The caller must ensure these, which no proof covers:
   - No pointer is null, even if the length is 0. As many bytes as the length says may be read there, or written in a
     room. Nobody changes them until the call returns. The same holds of an array of numbers, aligned to 4 bytes.
   - `room` and `size` overlap no other argument.
   - A `sas_task` starts as SAS_TASK_NONE, or as zero bytes. The caller may read `is_there`, but changes and copies
     nothing of it. It is passed to one call at a time, and in the end to `sas_task_free`.

   There is no global state, so threads may call at the same time, each with a `sas_task` of its own. */
#ifndef SAS_H
#define SAS_H

#include <stddef.h>
#include <stdint.h>

/* The version of this header. `sas_version` returns that of the library. */
#define SAS_VERSION "1.1.0"

/* The size of a room that is enough for each answer of sas_plan, sas_check, sas_task_read, sas_task_plan,
   sas_task_plan_operators and sas_task_run. */
#define SAS_LINE_ROOM 128

#ifdef __cplusplus
extern "C" {
#endif

/* Returns the version of the library, such as "1.1.0". That of libsas.so may be later than SAS_VERSION. */
const char *sas_version(void);

/* What a call returns, in 32 bits. The room after an answer is unchanged; from 2 on, the whole room is. At 3, 4 and 5
   the value of `*size` means nothing. */
#if defined(__cplusplus) || (defined(__STDC_VERSION__) && __STDC_VERSION__ >= 202311L)
enum sas_number : uint32_t {
#else
enum sas_number {
#endif
    SAS_YES = 0,            /* Yes, or printed. The answer is the first `*size` bytes of the room. */
    SAS_NO = 1,             /* No, or a file is refused. The answer is the first `*size` bytes of the room. */
    SAS_ROOM_TOO_SHORT = 2, /* The answer has `*size` bytes, more than the room. */
    SAS_OUT_OF_MEMORY = 3,  /* An allocation failed. */
    SAS_INPUT_TOO_LONG = 4, /* An input has more than 4,294,967,296 bytes. */
    SAS_NO_TASK = 5         /* The `sas_task` holds no task. */
};

/* Whether a plan solves a task: `sas plan TASK PLAN`. The answer is a line that fits in SAS_LINE_ROOM bytes. */
enum sas_number sas_plan(const uint8_t *task, size_t task_length, const uint8_t *plan, size_t plan_length,
                         uint8_t *room, size_t room_length, size_t *size);

/* Whether a task is layered: `sas check TASK`. The answer is a line that fits in SAS_LINE_ROOM bytes. */
enum sas_number sas_check(const uint8_t *task, size_t task_length, uint8_t *room, size_t room_length, size_t *size);

/* Which mutex groups of a task are shown to be exclusive: `sas mutex TASK`. Yes if all are. */
enum sas_number sas_mutex(const uint8_t *task, size_t task_length, uint8_t *room, size_t room_length, size_t *size);

/* What a task is about: `sas show TASK`. */
enum sas_number sas_show(const uint8_t *task, size_t task_length, uint8_t *room, size_t room_length, size_t *size);

/* The text of a task, each line ended by LF: `sas print TASK`. If it is printed, it isn't longer than the task. */
enum sas_number sas_print(const uint8_t *task, size_t task_length, uint8_t *room, size_t room_length, size_t *size);

/* The text of a plan, each line ended by LF: `sas steps PLAN`. If it is printed, it isn't longer than the plan. */
enum sas_number sas_steps(const uint8_t *plan, size_t plan_length, uint8_t *room, size_t room_length, size_t *size);

/* The same answers with the reasons for a no, in lines that begin with two spaces: `sas plan --why TASK PLAN`, `sas
   check --why TASK` and `sas mutex --why TASK`. */
enum sas_number sas_plan_why(const uint8_t *task, size_t task_length, const uint8_t *plan, size_t plan_length,
                             uint8_t *room, size_t room_length, size_t *size);
enum sas_number sas_check_why(const uint8_t *task, size_t task_length, uint8_t *room, size_t room_length, size_t *size);
enum sas_number sas_mutex_why(const uint8_t *task, size_t task_length, uint8_t *room, size_t room_length, size_t *size);

/* What each step of a plan does, and whether the plan solves the task: `sas trace TASK PLAN`. */
enum sas_number sas_trace(const uint8_t *task, size_t task_length, const uint8_t *plan, size_t plan_length,
                          uint8_t *room, size_t room_length, size_t *size);

/* A task that is read once, for many plans. It holds a task exactly if `is_there` isn't 0. */
typedef struct sas_task {
    uint8_t is_there;
    void *at;
} sas_task;

/* What a `sas_task` starts as: it holds no task. */
#define SAS_TASK_NONE {0, NULL}

/* Reads a task and answers as `sas_check`. At SAS_YES the task is held from then on. At each other number no task is
   held. A task that was held before is freed, whatever the number. */
enum sas_number sas_task_read(sas_task *task, const uint8_t *bytes, size_t length,
                              uint8_t *room, size_t room_length, size_t *size);

/* Whether a plan solves the task that is held: answers as `sas_plan`. The task is still held, whatever the number. If
   no task is held, the number is SAS_NO_TASK. */
enum sas_number sas_task_plan(sas_task *task, const uint8_t *plan, size_t plan_length,
                              uint8_t *room, size_t room_length, size_t *size);

/* The same with the reasons for a no, as `sas_plan_why`. The task isn't read again. */
enum sas_number sas_task_plan_why(sas_task *task, const uint8_t *plan, size_t plan_length,
                                  uint8_t *room, size_t room_length, size_t *size);

/* What each step of a plan does, and whether the plan solves the task that is held, as `sas_trace`. The task isn't read
   again. */
enum sas_number sas_task_trace(sas_task *task, const uint8_t *plan, size_t plan_length,
                               uint8_t *room, size_t room_length, size_t *size);

/* Whether these operators, in this order, solve the task that is held at this cost. `operators` has `count` numbers,
   from 0 in the order of the task file. No name is looked up: of several operators with one name, the number says
   which. The answer is a line that fits in SAS_LINE_ROOM bytes: one of those of sas_task_plan, or `plan invalid: step S:
   no operator of that number`. The task is still held in any case. If no task is held, the call returns SAS_NO_TASK. */
enum sas_number sas_task_plan_operators(sas_task *task, const uint32_t *operators, size_t count, uint64_t cost,
                                        uint8_t *room, size_t room_length, size_t *size);

/* A plan as the numbers of its operators, from 0 in the order of the task file, and its cost; and the state that it
   starts in: `start_length` values, one for each variable, or none for the initial state. Derived variables are
   computed anew, whatever their values. `start` isn't null either; with no values it may be `operators`. */
typedef struct sas_run {
    const uint32_t *operators;
    size_t count;
    uint64_t cost;
    const uint32_t *start;
    size_t start_length;
} sas_run;

/* Whether these operators, in this order, solve the task that is held from that state on, at this cost. The answer is a
   line that fits in SAS_LINE_ROOM bytes: one of those of sas_task_plan_operators, `state refused: N values, not V`, or
   `state refused: variable V`, the first whose value isn't below its range. The task is still held in any case. */
enum sas_number sas_task_run(sas_task *task, const sas_run *run, uint8_t *room, size_t room_length, size_t *size);

/* The same after a trace, as of sas_task_trace: the lines `initial VAR VALUE NAME` have the values of that state. A start that
   is refused has no trace. */
enum sas_number sas_task_run_trace(sas_task *task, const sas_run *run, uint8_t *room, size_t room_length, size_t *size);

/* The values of the state behind these operators, one for each variable, derived ones too. `room_length` and `*size` count
   values. SAS_YES: all steps go through. SAS_NO: one doesn't, and the values are those before it; or `*size` is 0, and
   the start is refused. SAS_ROOM_TOO_SHORT: the state has `*size` values. The cost isn't looked at. */
enum sas_number sas_task_run_state(sas_task *task, const sas_run *run, uint32_t *room, size_t room_length, size_t *size);

/* Frees the task that is held, if there is one. After the call no task is held. */
void sas_task_free(sas_task *task);

#ifdef __cplusplus
}
#endif

#endif
