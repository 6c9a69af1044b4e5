/* library TASK PLAN COUNT ROUNDS: how long the library takes, in microseconds, for library.py: to read the task and hold it, for a
   plan of the task that is held, for this plan without its last step, with reasons, for its trace, for it by the numbers of its operators,
   and for both files by `sas_plan`. Of the rounds the best counts; each asks about the plan COUNT times. The plan has to be valid. */
#include "sas.h"
#include <stdio.h>
#include <stdlib.h>
#include <string.h>
#include <time.h>

struct bytes {
    uint8_t *at;
    size_t length;
};

static struct bytes read_file(const char *name) {
    struct bytes it = {NULL, 0};
    FILE *file = fopen(name, "rb");
    if (file == NULL || fseek(file, 0, SEEK_END) != 0) {
        perror(name);
        exit(3);
    }
    it.length = (size_t)ftell(file);
    it.at = malloc(it.length + 1);
    rewind(file);
    if (it.at == NULL || fread(it.at, 1, it.length, file) != it.length) {
        perror(name);
        exit(3);
    }
    fclose(file);
    return it;
}

/* Returns the processor time of this program, in microseconds: other programs don't add to it. */
static double now(void) {
    struct timespec it;
    clock_gettime(CLOCK_PROCESS_CPUTIME_ID, &it);
    return 1e6 * (double)it.tv_sec + 1e-3 * (double)it.tv_nsec;
}

static double least(double one, double other) {
    return one < other ? one : other;
}

/* The operators of a plan, and its cost. */
struct numbers {
    uint32_t *at;
    size_t count;
    uint64_t cost;
};

static struct bytes task, plan, shorter;
/* Room for each answer. */
static struct bytes answers;
static struct numbers by;
static long count;

/* Returns the trace of the plan. */
static char *read_trace(void) {
    size_t room = 1 << 20;
    char *trace = malloc(room + 1);
    while (sas_trace(task.at, task.length, plan.at, plan.length, (uint8_t *)trace, room, &room) == SAS_ROOM_TOO_SHORT) {
        trace = realloc(trace, room + 1);
    }
    trace[room] = 0;
    return trace;
}

/* Returns the operators of the plan and its cost, as the trace has them. */
static struct numbers read_numbers(void) {
    char *trace = read_trace(), *cost = NULL;
    struct numbers it = {malloc((plan.length + 1) * sizeof *it.at), 0, 0};
    for (char *line = strstr(trace, "\nstep "); line != NULL; line = strstr(line, "\nstep ")) {
        line = strchr(line + strlen("\nstep "), ' ');
        it.at[it.count++] = (uint32_t)strtoul(line, &cost, 10);
        it.cost += strtoull(cost, NULL, 10);
    }
    free(trace);
    return it;
}

/* Whether a line of the plan that begins at this byte is a step. */
static int begins_step(size_t at) {
    return plan.at[at] == '(' && (at == 0 || plan.at[at - 1] == '\n');
}

/* Returns the plan without the line of its last step. */
static struct bytes without_last_step(void) {
    struct bytes it = {malloc(plan.length + 1), 0};
    size_t last = plan.length, next;
    while (last > 0 && !begins_step(last - 1)) {
        last--;
    }
    for (next = last; next < plan.length && plan.at[next] != '\n'; next++) {
    }
    it.length = last == 0 ? 0 : last - 1;
    memcpy(it.at, plan.at, it.length);
    if (next < plan.length) {
        memcpy(it.at + it.length, plan.at + next + 1, plan.length - next - 1);
        it.length += plan.length - next - 1;
    }
    return it;
}

/* The least times of all rounds. */
static double read_time = 1e18, plan_time = 1e18, why_time = 1e18, trace_time = 1e18, numbers_time = 1e18, both_time = 1e18;

struct answer {
    enum sas_number number;
    size_t size;
    uint8_t room[SAS_LINE_ROOM];
};

static void judge(sas_task *held, struct answer *it) {
    for (long place = 0; place < count; place++) {
        it->number = sas_task_plan(held, plan.at, plan.length, it->room, sizeof it->room, &it->size);
    }
}

/* A call about a plan of a task that is held. */
typedef uint32_t about_plan(sas_task *, const uint8_t *, size_t, uint8_t *, size_t, size_t *);

/* Returns how long a call takes. */
static double ask(about_plan *call, sas_task *held, struct bytes about) {
    size_t size;
    while (call(held, about.at, about.length, answers.at, answers.length, &size) == SAS_ROOM_TOO_SHORT) {
        answers.at = realloc(answers.at, answers.length = size);
    }
    double began = now();
    for (long place = 0; place < count; place++) {
        call(held, about.at, about.length, answers.at, answers.length, &size);
    }
    return (now() - began) / (double)count;
}

static void judge_by_numbers(sas_task *held, struct answer *it) {
    for (long place = 0; place < count; place++) {
        it->number = sas_task_plan_operators(held, by.at, by.count, by.cost, it->room, sizeof it->room, &it->size);
    }
}

/* Whether two answers are the same yes. */
static int same(const struct answer *one, const struct answer *other) {
    return one->number == SAS_YES && other->number == SAS_YES && one->size == other->size && memcmp(one->room, other->room, one->size) == 0;
}

/* Measures one round. Returns whether all calls have this answer, and the plan without its last step is invalid. */
static int measure(struct answer *answer) {
    struct answer numbers = {SAS_NO_TASK, 0, {0}}, both = numbers;
    sas_task held = SAS_TASK_NONE;
    double began = now();
    sas_task_read(&held, task.at, task.length, answer->room, sizeof answer->room, &answer->size);
    read_time = least(read_time, now() - began);
    began = now();
    judge(&held, answer);
    plan_time = least(plan_time, (now() - began) / (double)count);
    why_time = least(why_time, ask(sas_task_plan_why, &held, shorter));
    int is_invalid = strncmp((const char *)answers.at, "plan invalid", strlen("plan invalid")) == 0;
    trace_time = least(trace_time, ask(sas_task_trace, &held, plan));
    began = now();
    judge_by_numbers(&held, &numbers);
    numbers_time = least(numbers_time, (now() - began) / (double)count);
    sas_task_free(&held);
    began = now();
    both.number = sas_plan(task.at, task.length, plan.at, plan.length, both.room, sizeof both.room, &both.size);
    both_time = least(both_time, now() - began);
    return is_invalid && same(answer, &numbers) && same(answer, &both);
}

int main(int words_given, char **words) {
    if (words_given != 5) {
        return 2;
    }
    struct answer answer = {SAS_NO_TASK, 0, {0}};
    task = read_file(words[1]), plan = read_file(words[2]), count = atol(words[3]);
    by = read_numbers(), shorter = without_last_step();
    for (long round = 0; round < atol(words[4]); round++) {
        if (!measure(&answer)) {
            return 1;
        }
    }
    printf("%.3f %.3f %.3f %.3f %.3f %.3f ", read_time, plan_time, why_time, trace_time, numbers_time, both_time);
    printf("%.*s", (int)answer.size, (const char *)answer.room);
    return 0;
}
