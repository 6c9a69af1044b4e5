/* The three functions by which libsas allocates memory. libsas.a has them over malloc, realloc and free. A program that is linked with
   libsas.a may have its own in their place: if it defines all three, those of the archive aren't linked. (libsas.so has its own.)

   - `rattle_alloc` allocates `size` bytes, aligned to `align`, a power of 2 of at most 16. The size may be 0.
   - `rattle_realloc` makes a block of `old_size` bytes one of `size` bytes, which may have moved, with the front of its content. If that
     fails, the block stays as it was.
   - `rattle_dealloc` frees a block.

   Of a block that isn't there, `at` isn't null either. The functions are called by the thread that calls the library. A call that gets
   no block returns SAS_OUT_OF_MEMORY, after it has freed all other blocks that it got; nothing else has changed then. A call that
   returns has freed all blocks but those of a task that it holds from then on. */
#ifndef SAS_MEMORY_H
#define SAS_MEMORY_H

#include <stddef.h>
#include <stdint.h>

#ifdef __cplusplus
extern "C" {
#endif

typedef struct sas_block {
    uint64_t is_there; /* 1, or 0 if there is no memory */
    void *at;
} sas_block;

sas_block rattle_alloc(size_t size, size_t align);
sas_block rattle_realloc(void *at, size_t old_size, size_t size, size_t align);
void rattle_dealloc(void *at);

#ifdef __cplusplus
}
#endif

#endif
