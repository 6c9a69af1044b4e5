/* held TASK PLAN..: whether each plan solves the task, which is read once, and why not. Prints the name of each plan and what
   `sas plan --why` prints. The exit status is 0 if all are valid, 1 if one isn't or the task is refused, 3 if there is no answer. */
#include "sas.h"
#include <stdio.h>
#include <stdlib.h>

struct bytes {
    uint8_t *at;
    size_t length;
};

static void fail(const char *what, const char *name) {
    fprintf(stderr, "held: %s: %s\n", what, name);
    exit(3);
}

/* Makes a block of memory longer. */
static void grow(uint8_t **at, size_t length) {
    uint8_t *more = realloc(*at, length);
    if (more == NULL) {
        fputs("held: out of memory\n", stderr);
        exit(3);
    }
    *at = more;
}

/* Returns what a file holds; to be freed. */
static struct bytes read_file(const char *name) {
    FILE *file = fopen(name, "rb");
    struct bytes it = {NULL, 0};
    size_t room = 1 << 16, got = 0;
    if (file == NULL) {
        fail("cannot open", name);
    }
    do {
        it.length += got;
        room = it.length == room ? 2 * room : room;
        grow(&it.at, room);
        got = fread(it.at + it.length, 1, room - it.length, file);
    } while (got > 0);
    if (ferror(file)) {
        fail("cannot read", name);
    }
    fclose(file);
    return it;
}

/* Judges a plan, and makes the room longer where the answer doesn't fit. */
static enum sas_number judge(sas_task *task, struct bytes plan, struct bytes *room, size_t *size) {
    enum sas_number number = sas_task_plan_why(task, plan.at, plan.length, room->at, room->length, size);
    if (number == SAS_ROOM_TOO_SHORT) {
        grow(&room->at, *size);
        room->length = *size;
        number = sas_task_plan_why(task, plan.at, plan.length, room->at, room->length, size);
    }
    return number;
}

int main(int count, char **words) {
    sas_task task = SAS_TASK_NONE;
    struct bytes room = {NULL, SAS_LINE_ROOM};
    size_t size = 0;
    enum sas_number number;
    int status = 0;
    if (count < 3) {
        fputs("usage: held TASK PLAN..\n", stderr);
        return 2;
    }

    struct bytes file = read_file(words[1]);
    grow(&room.at, room.length);
    number = sas_task_read(&task, file.at, file.length, room.at, room.length, &size);
    free(file.at); /* the task that is held doesn't need it */
    if (number > SAS_NO) {
        fail("no answer", words[1]);
    }
    if (number == SAS_NO) {
        fwrite(room.at, 1, size, stdout);
        free(room.at);
        return 1;
    }

    for (int place = 2; place < count; place++) {
        file = read_file(words[place]);
        number = judge(&task, file, &room, &size);
        free(file.at);
        if (number > SAS_NO) {
            fail("no answer", words[place]);
        }
        printf("%s: ", words[place]);
        fwrite(room.at, 1, size, stdout);
        status = number == SAS_NO ? 1 : status;
    }
    sas_task_free(&task);
    free(room.at);
    return status;
}
