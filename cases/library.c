/* Calls the library where memory is refused, over and over, and in threads, for library_tasks.py.

     library refused TASK PLAN         each call, with each allocation of it refused in turn
     library many TASK PLAN COUNT      so many times the plan of one task, by each call about one in turn
     library threads TASK PLAN COUNT   the same in four threads at once, each with a task of its own

   `refused` prints a line for each call, `NAME: N refused, M wrong`, and the others one line. malloc, realloc and free are this
   program's own, over those of the C library, so that blocks are counted and one can be refused. */
#include "sas.h"
#include <fcntl.h>
#include <inttypes.h>
#include <pthread.h>
#include <stdio.h>
#include <stdlib.h>
#include <string.h>
#include <sys/resource.h>
#include <sys/stat.h>
#include <unistd.h>

/* what the C library's own are called there */
extern void *__libc_malloc(size_t size);
extern void *__libc_realloc(void *block, size_t size);
extern void __libc_free(void *block);

/* how many allocations go well before one is refused, below 0 for no such one; and how many blocks this thread has more than it
   began with */
static _Thread_local long before_refusal = -1, blocks;

static int is_refused(void) {
    return before_refusal >= 0 && before_refusal-- == 0;
}

void *malloc(size_t size) {
    void *block = is_refused() ? NULL : __libc_malloc(size);
    blocks += block != NULL;
    return block;
}

void *realloc(void *block, size_t size) {
    if (block == NULL) {
        return malloc(size);
    }
    return is_refused() ? NULL : __libc_realloc(block, size);
}

void free(void *block) {
    blocks -= block != NULL;
    __libc_free(block);
}

enum { ROOM = 1 << 20, THREADS = 4, WARM = 1000 };

struct bytes {
    uint8_t *at;
    size_t length;
};

struct answer {
    enum sas_number number;
    size_t size;
    uint8_t room[ROOM];
};

static struct bytes task, plan;
static long count;

typedef enum sas_number over_one(const uint8_t *, size_t, uint8_t *, size_t, size_t *);
typedef enum sas_number over_two(const uint8_t *, size_t, const uint8_t *, size_t, uint8_t *, size_t, size_t *);
typedef enum sas_number over_held(sas_task *, const uint8_t *, size_t, uint8_t *, size_t, size_t *);

static const struct request {
    const char *name;
    over_one *of_task, *of_plan;
    over_two *of_both;
} requests[] = {
    {"sas_plan", NULL, NULL, sas_plan},
    {"sas_plan_why", NULL, NULL, sas_plan_why},
    {"sas_trace", NULL, NULL, sas_trace},
    {"sas_check", sas_check, NULL, NULL},
    {"sas_check_why", sas_check_why, NULL, NULL},
    {"sas_mutex", sas_mutex, NULL, NULL},
    {"sas_mutex_why", sas_mutex_why, NULL, NULL},
    {"sas_show", sas_show, NULL, NULL},
    {"sas_print", sas_print, NULL, NULL},
    {"sas_steps", NULL, sas_steps, NULL},
};

/* the operators of the plan's steps that succeed, and the plan's cost; for a plan that is refused, none and 0 */
static uint32_t *operators;
static size_t operator_count;
static uint64_t cost;

static enum sas_number plan_operators(sas_task *held, const uint8_t *unused, size_t length, uint8_t *room, size_t room_length,
                                      size_t *size) {
    (void)unused, (void)length;
    return sas_task_plan_operators(held, operators, operator_count, cost, room, room_length, size);
}

static enum sas_number run_operators(sas_task *held, const uint8_t *unused, size_t length, uint8_t *room, size_t room_length,
                                     size_t *size) {
    const sas_run run = {operators, operator_count, cost, operators, 0};
    (void)unused, (void)length;
    return sas_task_run(held, &run, room, room_length, size);
}

static enum sas_number trace_operators(sas_task *held, const uint8_t *unused, size_t length, uint8_t *room, size_t room_length,
                                       size_t *size) {
    const sas_run run = {operators, operator_count, cost, operators, 0};
    (void)unused, (void)length;
    return sas_task_run_trace(held, &run, room, room_length, size);
}

/* Returns the bytes of the values in place of a text. */
static enum sas_number state_behind(sas_task *held, const uint8_t *unused, size_t length, uint8_t *room, size_t room_length,
                                    size_t *size) {
    const sas_run run = {operators, operator_count, cost, operators, 0};
    (void)unused, (void)length;
    enum sas_number number = sas_task_run_state(held, &run, (uint32_t *)(void *)room, room_length / sizeof(uint32_t), size);
    *size *= sizeof(uint32_t);
    return number;
}

/* the calls about a plan of a task that is held, and which request each answers; there is none for operators */
static const struct held_request {
    const char *name;
    over_held *of_held;
    const struct request *request;
} held_requests[] = {
    {"sas_task_plan", sas_task_plan, &requests[0]},
    {"sas_task_plan_why", sas_task_plan_why, &requests[1]},
    {"sas_task_trace", sas_task_trace, &requests[2]},
    {"sas_task_plan_operators", plan_operators, NULL},
    {"sas_task_run", run_operators, NULL},
    {"sas_task_run_trace", trace_operators, NULL},
    {"sas_task_run_state", state_behind, NULL},
};

enum { HELD = sizeof held_requests / sizeof *held_requests };

static struct bytes read_file(const char *name) {
    struct bytes it;
    struct stat about;
    int file = open(name, O_RDONLY);
    if (file < 0 || fstat(file, &about) != 0) {
        perror(name);
        exit(3);
    }
    it.length = (size_t)about.st_size;
    it.at = malloc(it.length + 1);
    if (it.at == NULL || read(file, it.at, it.length) != (ssize_t)it.length) {
        perror(name);
        exit(3);
    }
    close(file);
    return it;
}

static void ask(const struct request *it, struct answer *got) {
    if (it->of_both != NULL) {
        got->number = it->of_both(task.at, task.length, plan.at, plan.length, got->room, ROOM, &got->size);
    } else if (it->of_task != NULL) {
        got->number = it->of_task(task.at, task.length, got->room, ROOM, &got->size);
    } else {
        got->number = it->of_plan(plan.at, plan.length, got->room, ROOM, &got->size);
    }
}

static void read_task(sas_task *held, struct answer *got) {
    got->number = sas_task_read(held, task.at, task.length, got->room, ROOM, &got->size);
}

static void ask_held(const struct held_request *it, sas_task *held, struct answer *got) {
    got->number = it->of_held(held, plan.at, plan.length, got->room, ROOM, &got->size);
}

/* Asks what a call about a plan of a task that is held has to answer. */
static void ask_due(const struct held_request *it, struct answer *due) {
    sas_task held = SAS_TASK_NONE;
    if (it->request != NULL) {
        ask(it->request, due);
        return;
    }
    read_task(&held, due);
    ask_held(it, &held, due);
    sas_task_free(&held);
}

static int is_answer(const struct answer *it) {
    return it->number == SAS_YES || it->number == SAS_NO;
}

static int same(const struct answer *one, const struct answer *other) {
    return one->number == other->number && one->size == other->size && memcmp(one->room, other->room, one->size) == 0;
}

static struct answer due, got;

/* Whether what was got with an allocation refused is out of memory, or the answer all the same. */
static int is_right(void) {
    return got.number == SAS_OUT_OF_MEMORY || same(&got, &due);
}

/* Refuses each allocation of a request in turn, until none is refused. Each time as many blocks are left as before, and then the
   same call has its answer. Returns how often something else came. */
static long refuse_request(const struct request *it, long *refused) {
    long wrong = 0, left = blocks;
    ask(it, &due);
    wrong += !is_answer(&due) || blocks != left;
    for (*refused = 0;; ++*refused) {
        before_refusal = *refused;
        ask(it, &got);
        if (before_refusal >= 0) {
            break;
        }
        wrong += !is_right() || blocks != left;
        ask(it, &got);
        wrong += !same(&got, &due) || blocks != left;
    }
    before_refusal = -1;
    return wrong + !same(&got, &due);
}

/* The same of reading a task that is to be held: over none, and over one that is held. None is where memory was refused. */
static long refuse_read(long *refused) {
    long wrong = 0, left = blocks;
    sas_task held = SAS_TASK_NONE;
    *refused = 0;
    for (int is_over_one = 0; is_over_one < 2; is_over_one++) {
        for (long number = 0;; number++, ++*refused) {
            read_task(&held, &due);
            if (!is_over_one) {
                sas_task_free(&held);
            }
            before_refusal = number;
            read_task(&held, &got);
            if (before_refusal >= 0) {
                break;
            }
            wrong += !is_right() || held.is_there != (got.number == SAS_YES);
            for (int place = 0; place < HELD && !held.is_there; place++) {
                ask_held(&held_requests[place], &held, &got);
                wrong += got.number != SAS_NO_TASK || blocks != left;
            }
            read_task(&held, &got);
            wrong += !same(&got, &due);
            sas_task_free(&held);
            wrong += blocks != left;
        }
        before_refusal = -1;
        wrong += !same(&got, &due);
        sas_task_free(&held);
        wrong += blocks != left;
    }
    return wrong;
}

/* The same of a plan of a task that is held, which stays so. The answer is that of the request over both files. */
static long refuse_held(const struct held_request *it, long *refused) {
    long wrong = 0, left = blocks, before;
    sas_task held = SAS_TASK_NONE;
    ask_due(it, &due);
    read_task(&held, &got);
    before = blocks;
    wrong += !is_answer(&due);
    for (*refused = 0;; ++*refused) {
        before_refusal = *refused;
        ask_held(it, &held, &got);
        if (before_refusal >= 0) {
            break;
        }
        wrong += !is_right() || blocks != before;
        ask_held(it, &held, &got);
        wrong += !same(&got, &due) || blocks != before;
    }
    before_refusal = -1;
    wrong += !same(&got, &due);
    sas_task_free(&held);
    return wrong + (blocks != left);
}

static void tell(const char *name, long refused, long wrong) {
    printf("%s: %ld refused, %ld wrong\n", name, refused, wrong);
}

static void refuse_all(void) {
    long refused = 0, wrong;
    for (size_t place = 0; place < sizeof requests / sizeof *requests; place++) {
        wrong = refuse_request(&requests[place], &refused);
        tell(requests[place].name, refused, wrong);
    }
    wrong = refuse_read(&refused);
    tell("sas_task_read", refused, wrong);
    for (int place = 0; place < HELD; place++) {
        wrong = refuse_held(&held_requests[place], &refused);
        tell(held_requests[place].name, refused, wrong);
    }
}

/* Returns the most memory that the program had so far, in kB. */
static long most_memory(void) {
    struct rusage usage;
    getrusage(RUSAGE_SELF, &usage);
    return usage.ru_maxrss;
}

/* the answer of each call about a plan of a task that is held, by its request over both files */
static struct answer dues[HELD];

static void ask_dues(void) {
    for (int place = 0; place < HELD; place++) {
        ask_due(&held_requests[place], &dues[place]);
    }
}

static void ask_many(void) {
    long wrong = 0, left, most = 0;
    sas_task held = SAS_TASK_NONE;
    ask_dues();
    left = blocks;
    read_task(&held, &got);
    for (long number = -WARM; number < count; number++) {
        int place = (int)((number + WARM) % HELD);
        most = number == 0 ? most_memory() : most;
        ask_held(&held_requests[place], &held, &got);
        wrong += !same(&got, &dues[place]);
    }
    most = most_memory() - most;
    sas_task_free(&held);
    printf("%ld plans, %ld wrong, %ld kB more, %ld blocks left\n", count, wrong, most, blocks - left);
}

/* Asks about the plan so many times, and now and then reads the task again, over the one that is held. */
static void *ask_in_thread(void *wrong) {
    sas_task held = SAS_TASK_NONE;
    struct answer *mine = __libc_malloc(sizeof *mine);
    long left = blocks;
    for (long number = 0; number < count; number++) {
        int place = (int)(number % HELD);
        if (number % 64 == 0) {
            read_task(&held, mine);
        }
        ask_held(&held_requests[place], &held, mine);
        *(long *)wrong += !same(mine, &dues[place]);
    }
    sas_task_free(&held);
    *(long *)wrong += blocks != left;
    __libc_free(mine);
    return NULL;
}

static void ask_in_threads(void) {
    pthread_t threads[THREADS];
    long wrong[THREADS] = {0}, all = 0;
    ask_dues();
    for (int place = 0; place < THREADS; place++) {
        if (pthread_create(&threads[place], NULL, ask_in_thread, &wrong[place]) != 0) {
            exit(3);
        }
    }
    for (int place = 0; place < THREADS; place++) {
        pthread_join(threads[place], NULL);
        all += wrong[place];
    }
    printf("%ld plans in each of %d threads, %ld wrong\n", count, THREADS, all);
}

/* Finds the operators of the plan's steps in its trace, and the cost at its end. */
static void find_operators(void) {
    static const char before_cost[] = "; cost = ";
    const char *line;
    ask(&requests[2], &due);
    due.room[due.size < ROOM ? due.size : ROOM - 1] = 0;
    operators = malloc((due.size + 1) * sizeof *operators);
    for (line = (const char *)due.room; is_answer(&due) && line != NULL; line = strchr(line, '\n')) {
        line += *line == '\n';
        operator_count += sscanf(line, "step %*u %" SCNu32, &operators[operator_count]) == 1;
    }
    for (size_t place = 0; place + sizeof before_cost < plan.length; place++) {
        if (memcmp(plan.at + place, before_cost, sizeof before_cost - 1) == 0) {
            cost = strtoull((const char *)plan.at + place + sizeof before_cost - 1, NULL, 10);
        }
    }
}

int main(int words_given, char **words) {
    if (words_given < 4) {
        return 2;
    }
    task = read_file(words[2]);
    plan = read_file(words[3]);
    count = words_given > 4 ? atol(words[4]) : 0;
    find_operators();
    if (strcmp(words[1], "refused") == 0) {
        refuse_all();
    } else if (strcmp(words[1], "many") == 0) {
        ask_many();
    } else {
        ask_in_threads();
    }
    return 0;
}
