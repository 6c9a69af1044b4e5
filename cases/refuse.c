/* Refuses one allocation of the program that it is preloaded into: the one whose number REFUSE says, counted from 1. It then
   writes a byte to the descriptor that REFUSED says, so that whoever started the program knows that it came to that. */
#include <stddef.h>
#include <stdlib.h>
#include <unistd.h>

/* what the C library's own malloc and realloc are called there */
extern void *__libc_malloc(size_t size);
extern void *__libc_realloc(void *block, size_t size);

static long made, refused = -1;

static long told(const char *name) {
    const char *text = getenv(name);
    return text ? atol(text) : 0;
}

static int is_refused(void) {
    if (refused < 0) {
        refused = told("REFUSE");
    }
    made += 1;
    return made == refused && write((int)told("REFUSED"), "", 1) == 1;
}

void *malloc(size_t size) {
    return is_refused() ? NULL : __libc_malloc(size);
}

void *realloc(void *block, size_t size) {
    return is_refused() ? NULL : __libc_realloc(block, size);
}
