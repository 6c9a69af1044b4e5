/* monitor TASK PLAN: watches a machine that carries out a plan. Before each step, and after the last, it reads a line from standard
   input with the values that were sensed, as VARIABLE=VALUE; all others are as expected. It prints whether the rest of the plan is valid
   from there, and if it isn't, which step will fail and why. Then the machine should stop: the exit status is 1. It is 0 if nothing is
   wrong, 3 if there is no answer. */
#include "sas.h"
#include <stdio.h>
#include <stdlib.h>
#include <string.h>

enum { LARGEST = 1 << 24, MOST = 1 << 16 };

static uint8_t file[LARGEST], plan[LARGEST], text[LARGEST], verdict[SAS_LINE_ROOM + 1];
static uint32_t operators[MOST], costs[MOST], state[MOST];
static const char *names[MOST];
static size_t count, variables;

static int fail(const char *what) {
    fprintf(stderr, "monitor: %s\n", what);
    return 3;
}

static size_t read_file(const char *name, uint8_t *to) {
    FILE *opened = fopen(name, "rb");
    size_t length = opened == NULL ? LARGEST : fread(to, 1, LARGEST, opened);
    if (opened == NULL || ferror(opened) || length == LARGEST) {
        exit(fail(name));
    }
    fclose(opened);
    return length;
}

/* Takes the operators of the steps, their costs and their names from a trace, which ends with a line about the plan. */
static void take_steps(char *trace) {
    char *line;
    int before = 0;
    for (line = strtok(trace, "\n"); line != NULL && count < MOST; line = strtok(NULL, "\n")) {
        if (sscanf(line, "step %*u %u %u %n", &operators[count], &costs[count], &before) == 2) {
            names[count++] = line + before;
        }
    }
}

/* Notes what a line says was sensed. */
static int sense(const char *line) {
    unsigned long variable, value;
    int length = 0;
    while (sscanf(line, " %lu=%lu%n", &variable, &value, &length) == 2) {
        if (variable >= variables) {
            return 0;
        }
        state[variable] = (uint32_t)value;
        line += length;
    }
    return 1;
}

/* Prints which step will fail and why, of a line such as `plan invalid: step 2: not applicable`. */
static void tell(const char *verdict, size_t place) {
    const char *reason = strstr(verdict, ": ") + 2;
    size_t step = 0;
    int before = 0;
    if (sscanf(reason, "step %zu: %n", &step, &before) == 1) {
        printf("step %zu will fail, %s: ", place + step, names[place + step - 1]);
    }
    fputs(reason + before, stdout);
}

/* Watches the steps, and returns the exit status. */
static int watch(sas_task *task) {
    static char line[MOST];
    size_t place, later, size;
    enum sas_number number = SAS_YES;
    for (place = 0; place <= count && fgets(line, sizeof line, stdin) != NULL; place++) {
        sas_run run = {operators + place, count - place, 0, state, variables};
        if (!sense(line)) {
            return fail("no such variable");
        }
        for (later = place; later < count; later++) {
            run.cost += costs[later];
        }
        number = sas_task_run(task, &run, verdict, SAS_LINE_ROOM, &size);
        if (number > SAS_NO) {
            return fail("no answer");
        }
        verdict[size] = 0;
        printf("%zu steps to go: ", count - place);
        if (number == SAS_NO) {
            tell((const char *)verdict, place);
            return 1;
        }
        puts("valid");
        run.count = place < count;
        number = sas_task_run_state(task, &run, state, MOST, &variables);
        if (number != SAS_YES) {
            return fail("no answer");
        }
    }
    return 0;
}

int main(int words_given, char **words) {
    static const sas_run none = {operators, 0, 0, state, 0};
    sas_task task = SAS_TASK_NONE;
    enum sas_number number;
    size_t size, length;
    int status;
    if (words_given != 3) {
        return fail("usage: monitor TASK PLAN");
    }
    length = read_file(words[2], plan);
    number = sas_task_read(&task, file, read_file(words[1], file), text, sizeof text - 1, &size);
    if (number == SAS_YES) {
        number = sas_task_trace(&task, plan, length, text, sizeof text - 1, &size);
    }
    if (number > SAS_NO) {
        return fail("no answer");
    }
    text[size] = 0;
    if (number == SAS_NO) {
        fputs((const char *)text, stdout);
        sas_task_free(&task);
        return 1;
    }
    take_steps((char *)text);
    number = sas_task_run_state(&task, &none, state, MOST, &variables);
    status = number == SAS_YES ? watch(&task) : fail("no answer");
    sas_task_free(&task);
    return status;
}
