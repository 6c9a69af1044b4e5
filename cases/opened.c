/* Notes each file that the program opens that it is preloaded into: its name and LF, written to the descriptor that OPENED says.
   The file whose name UNREADABLE says can't be opened. */
#include <errno.h>
#include <fcntl.h>
#include <stdarg.h>
#include <stdlib.h>
#include <string.h>
#include <unistd.h>

static void note(const char *name) {
    int notes = atoi(getenv("OPENED"));
    if (write(notes, name, strlen(name)) < 0 || write(notes, "\n", 1) < 0) {
        abort();
    }
}

int open(const char *name, int flags, ...) {
    va_list rest;
    mode_t mode = 0;
    if (flags & O_CREAT) {
        va_start(rest, flags);
        mode = va_arg(rest, mode_t);
        va_end(rest);
    }
    note(name);
    if (strcmp(name, getenv("UNREADABLE")) == 0) {
        errno = EACCES;
        return -1;
    }
    return openat(AT_FDCWD, name, flags, mode);
}
