/* arena TASK PLAN BYTES: whether a plan solves a task, with memory for the library of so many bytes, which are there from the start. If they
   aren't enough, the call says so, and the task is still held. Then the plan is judged again, with twice as many.

   The exit status is that of `sas plan`, and 3 if there is no answer. */
#include "sas.h"
#include "sas_memory.h"
#include <stdio.h>
#include <stdlib.h>
#include <string.h>

enum { ALIGN = 16, LARGEST = 1 << 26 };

/* the arena, aligned as a long double, how many bytes it may have, and how many are taken from its front */
static union {
    long double aligned;
    uint8_t bytes[LARGEST];
} arena;
static size_t most, taken;

sas_block rattle_alloc(size_t size, size_t align) {
    sas_block block = {0, arena.bytes};
    (void)align;
    if (taken <= most && size <= most - taken) {
        block.is_there = 1;
        block.at = arena.bytes + taken;
        taken += (size + ALIGN - 1) / ALIGN * ALIGN;
    }
    return block;
}

/* A block that grows is copied. */
sas_block rattle_realloc(void *at, size_t old_size, size_t size, size_t align) {
    sas_block block = rattle_alloc(size, align);
    memcpy(block.at, at, !block.is_there ? 0 : old_size < size ? old_size : size);
    return block;
}

/* All blocks of a call are freed at once, at its end. */
void rattle_dealloc(void *at) {
    (void)at;
}

static uint8_t file[2][1 << 24], line[SAS_LINE_ROOM];

static size_t read_file(const char *name, uint8_t *to) {
    FILE *opened = fopen(name, "rb");
    size_t length = opened == NULL ? 0 : fread(to, 1, sizeof file[0], opened);
    if (opened == NULL || ferror(opened) || length == sizeof file[0]) {
        perror(name);
        exit(3);
    }
    fclose(opened);
    return length;
}

int main(int count, char **words) {
    sas_task task = SAS_TASK_NONE;
    enum sas_number number;
    size_t task_length, plan_length, kept, given, size = 0;
    if (count != 4) {
        fputs("usage: arena TASK PLAN BYTES\n", stderr);
        return 3;
    }
    task_length = read_file(words[1], file[0]);
    plan_length = read_file(words[2], file[1]);
    given = strtoul(words[3], NULL, 10);
    most = LARGEST;
    number = sas_task_read(&task, file[0], task_length, line, sizeof line, &size);
    /* what is taken now belongs to the task */
    kept = taken;
    while (number == SAS_YES && given <= LARGEST - kept) {
        most = kept + given;
        number = sas_task_plan(&task, file[1], plan_length, line, sizeof line, &size);
        if (number != SAS_OUT_OF_MEMORY) {
            break;
        }
        printf("an arena of %zu bytes is full\n", given);
        /* of a call about a plan nothing stays */
        taken = kept;
        given = 2 * given + 1;
        number = SAS_YES;
    }
    fwrite(line, 1, number <= SAS_NO ? size : 0, stdout);
    sas_task_free(&task);
    return number <= SAS_NO ? (int)number : 3;
}
