/* What the program asks of the system beside the C library and its memory, library/sas_memory.c: its arguments, and errno. The toolchain
   has these calls for x86-64 alone, so a program for another platform is linked with this file. Nothing proves it. */
#include <errno.h>
#include <stddef.h>
#include <stdint.h>

enum { NO_SUCH_ARGUMENT = -1, TOO_SHORT = -2 };

static int count;
static char **arguments;

/* glibc gives the arguments of `main` to each constructor, before it calls `main` */
__attribute__((constructor)) static void keep_arguments(int given_count, char **given) {
    count = given_count;
    arguments = given;
}

/* Copies an argument, without the byte 0 at its end, and returns its length. If the room is too short, it is full. */
intptr_t rattle_arg(size_t number, uint8_t *room, size_t length) {
    if (number >= (size_t)count || arguments[number] == NULL) {
        return NO_SUCH_ARGUMENT;
    }
    const char *argument = arguments[number];
    size_t at = 0;
    for (; argument[at] != 0; at++) {
        if (at == length) {
            return TOO_SHORT;
        }
        room[at] = (uint8_t)argument[at];
    }
    return (intptr_t)at;
}

int rattle_errno(void) {
    return errno;
}

void rattle_set_errno(int number) {
    errno = number;
}
