/* The three functions by which the library takes and gives back memory. allocator.c has them, or another file that
 * `bindings/c/build --allocator FILE.c` names. */
#ifndef GLOBSET_ALLOCATOR_H
#define GLOBSET_ALLOCATOR_H

#include <stddef.h>
#include <stdint.h>

/* `ok` is 1 and `at` a block, or `ok` is 0: then memory ran out, and `at` is any address but null. */
struct rattle_block {
    uint64_t ok;
    void *at;
};

/* Returns a block of `size` bytes that is aligned to `align`, a power of 2 up to 16. The size may be 0. */
struct rattle_block rattle_alloc(size_t size, size_t align);

/* Makes a block larger or smaller, perhaps in another place, and keeps its first `kept` bytes. If it fails, the block
 * is as it was. */
struct rattle_block rattle_realloc(void *at, size_t kept, size_t size, size_t align);

/* Gives a block back. */
void rattle_dealloc(void *at);

#endif
