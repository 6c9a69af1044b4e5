/* costs TASK PLAN: measures what calls of the library take, for library_costs.py. It prints a line for each call: its name, the number that
   it returns, the bytes of stack that it uses, how many blocks it allocates, how many bytes it has allocated at once, and the length of
   its answer. In front of each call, and behind it, it writes nothing to a file that isn't open, so that strace sees what is between.

   The three functions of the allocator are this program's own: blocks come from an arena. */
#define _GNU_SOURCE
#include "sas.h"
#include "sas_memory.h"
#include <pthread.h>
#include <stdio.h>
#include <stdlib.h>
#include <string.h>
#include <sys/mman.h>
#include <unistd.h>

enum { STACK = 1 << 20, FRONT = 16 };
static const size_t ARENA = (size_t)1 << 33, ROOM = (size_t)1 << 31;

/* the arena, and how much of it is taken; in front of each block is its size */
static uint8_t *arena;
static size_t taken, live, most;
static long made;

static size_t *size_of(void *at) {
    return (size_t *)((uint8_t *)at - FRONT);
}

sas_block rattle_alloc(size_t size, size_t align) {
    sas_block block = {1, arena + taken + FRONT};
    (void)align;
    if (size > ARENA - taken - 2 * FRONT) {
        block.is_there = 0;
        return block;
    }
    *size_of(block.at) = size;
    taken += FRONT + (size + FRONT - 1) / FRONT * FRONT;
    made += 1;
    live += size;
    most = live > most ? live : most;
    return block;
}

void rattle_dealloc(void *at) {
    live -= *size_of(at);
}

sas_block rattle_realloc(void *at, size_t old_size, size_t size, size_t align) {
    sas_block block;
    live -= old_size;
    block = rattle_alloc(size, align);
    live += block.is_there ? 0 : old_size;
    memcpy(block.at, at, !block.is_there ? 0 : old_size < size ? old_size : size);
    return block;
}

static uint8_t *task_bytes, *plan_bytes, *room;
static size_t task_length, plan_length, size, count;
static uint32_t *operators, *start, *values;
static size_t variables;
static uint64_t cost;
static sas_task task = SAS_TASK_NONE;
static enum sas_number number;

static void nothing(void) {
}
static void task_read(void) {
    number = sas_task_read(&task, task_bytes, task_length, room, ROOM, &size);
}
static void task_plan(void) {
    number = sas_task_plan(&task, plan_bytes, plan_length, room, ROOM, &size);
}
static void task_plan_why(void) {
    number = sas_task_plan_why(&task, plan_bytes, plan_length, room, ROOM, &size);
}
static void task_trace(void) {
    number = sas_task_trace(&task, plan_bytes, plan_length, room, ROOM, &size);
}
static void task_plan_operators(void) {
    number = sas_task_plan_operators(&task, operators, count, cost, room, ROOM, &size);
}
#define OF_TASK(NAME) \
    static void NAME(void) { \
        number = sas_##NAME(task_bytes, task_length, room, ROOM, &size); \
    }
#define OF_BOTH(NAME) \
    static void NAME(void) { \
        number = sas_##NAME(task_bytes, task_length, plan_bytes, plan_length, room, ROOM, &size); \
    }
OF_BOTH(plan)
OF_BOTH(plan_why)
OF_BOTH(trace)
OF_TASK(check)
OF_TASK(check_why)
OF_TASK(mutex)
OF_TASK(mutex_why)
OF_TASK(show)
OF_TASK(print)
static void steps(void) {
    number = sas_steps(plan_bytes, plan_length, room, ROOM, &size);
}
#define OF_RUN(NAME, TO) \
    static void NAME(void) { \
        const sas_run run = {operators, count, cost, start, variables}; \
        number = sas_##NAME(&task, &run, TO, ROOM / 4, &size); \
    }
OF_RUN(task_run, room)
OF_RUN(task_run_trace, room)
OF_RUN(task_run_state, values)
static void task_free(void) {
    sas_task_free(&task);
}

static const struct call {
    const char *name;
    void (*make)(void);
} calls[] = {
    {"nothing", nothing},
    {"sas_task_read", task_read},
    {"sas_task_plan", task_plan},
    {"sas_task_plan_why", task_plan_why},
    {"sas_task_trace", task_trace},
    {"sas_task_plan_operators", task_plan_operators},
    {"sas_task_run", task_run},
    {"sas_task_run_trace", task_run_trace},
    {"sas_task_run_state", task_run_state},
    {"sas_task_free", task_free},
    {"sas_plan", plan},
    {"sas_plan_why", plan_why},
    {"sas_trace", trace},
    {"sas_check", check},
    {"sas_check_why", check_why},
    {"sas_mutex", mutex},
    {"sas_mutex_why", mutex_why},
    {"sas_show", show},
    {"sas_print", print},
    {"sas_steps", steps},
};

static void *make(void *call) {
    ((const struct call *)call)->make();
    return NULL;
}

/* Returns how many bytes of its stack a thread uses that makes a call. */
static size_t stack_of(const struct call *it, uint8_t *stack) {
    pthread_attr_t about;
    pthread_t thread;
    size_t unused = 0;
    memset(stack, 0xa5, STACK);
    if (pthread_attr_init(&about) != 0 || pthread_attr_setstack(&about, stack, STACK) != 0 ||
        pthread_create(&thread, &about, make, (void *)it) != 0 || pthread_join(thread, NULL) != 0) {
        exit(3);
    }
    while (stack[unused] == 0xa5) {
        unused++;
    }
    return STACK - unused;
}

static uint8_t *read_file(const char *name, size_t *length) {
    FILE *file = fopen(name, "rb");
    uint8_t *at;
    if (file == NULL || fseek(file, 0, SEEK_END) != 0) {
        exit(3);
    }
    *length = (size_t)ftell(file);
    rewind(file);
    at = malloc(*length + 1);
    if (at == NULL || fread(at, 1, *length, file) != *length) {
        exit(3);
    }
    fclose(file);
    return at;
}

static void *mapped(size_t length) {
    void *at = mmap(NULL, length, PROT_READ | PROT_WRITE, MAP_PRIVATE | MAP_ANONYMOUS | MAP_NORESERVE, -1, 0);
    if (at == MAP_FAILED) {
        exit(3);
    }
    return at;
}

/* Takes the initial state of the task that is held, from which runs start. */
static void find_start(void) {
    const sas_run none = {operators, 0, 0, operators, 0};
    start = mapped(ROOM);
    values = mapped(ROOM);
    if (sas_task_run_state(&task, &none, start, ROOM / sizeof *start, &variables) != SAS_YES) {
        variables = 0;
    }
}

/* Takes the operators of the plan's steps and its cost from a trace of it. */
static void find_operators(void) {
    const char *line;
    task_read();
    task_trace();
    room[size] = 0;
    operators = malloc((size + 1) * sizeof *operators);
    for (line = (const char *)room; line != NULL; line = strchr(line + 1, '\n')) {
        unsigned int operator = 0, price = 0;
        if (sscanf(line, "\nstep %*u %u %u ", &operator, &price) == 2) {
            operators[count++] = operator;
            cost += price;
        }
    }
    find_start();
    sas_task_free(&task);
}

int main(int words_given, char **words) {
    uint8_t *stack = mapped(STACK);
    size_t place, least = 0;
    if (words_given != 3) {
        return 2;
    }
    task_bytes = read_file(words[1], &task_length);
    plan_bytes = read_file(words[2], &plan_length);
    arena = mapped(ARENA);
    room = mapped(ROOM);
    find_operators();
    for (place = 0; place < sizeof calls / sizeof *calls; place++) {
        const struct call *it = &calls[place];
        size_t before, used;
        ssize_t mark;
        taken = live == 0 ? 0 : taken;
        used = stack_of(it, stack);
        least = it->make == nothing ? used : least;
        if (it->make == task_read) {
            sas_task_free(&task);
        }
        taken = live == 0 ? 0 : taken;
        before = live;
        most = live;
        made = 0;
        mark = write(-1, "", 0);
        it->make();
        mark += write(-1, "", 0);
        printf("%s %d %zu %ld %zu %zu\n", it->name, mark == -2 ? (int)number : 3, used - least, made, most - before, size);
    }
    return 0;
}
