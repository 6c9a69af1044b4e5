/* The memory of the library: malloc, realloc and free of the C library. For a block of no bytes, `align` bytes are allocated, so that
   null always means that the allocation failed. `align` is at most that of malloc, 16. */
#include "sas_memory.h"
#include <stdlib.h>

/* the pointer of a block that isn't there, since no pointer is null */
static uint64_t nothing[2];

static sas_block told(void *at) {
    sas_block it = {at != NULL, at != NULL ? at : nothing};
    return it;
}

sas_block rattle_alloc(size_t size, size_t align) {
    return told(malloc(size > 0 ? size : align));
}

sas_block rattle_realloc(void *at, size_t old_size, size_t size, size_t align) {
    (void)old_size;
    return told(realloc(at, size > 0 ? size : align));
}

void rattle_dealloc(void *at) {
    free(at);
}
