/* The bridge from the library's allocator to malloc, realloc and free of the program.
 *
 * The library calls these three functions and no other for memory. It never asks for an alignment above 16, and malloc
 * aligns a block to each power of 2 up to 16 that divides its size. Another allocator can be put in place of this file:
 * one whose three functions belong together, and which aligns in the same way. */
#include "allocator.h"

#include <stdlib.h>

static char nothing;

static struct rattle_block block_at(void *at) {
    struct rattle_block block = {at != NULL, at != NULL ? at : &nothing};
    return block;
}

/* A block of no bytes gets as many as its alignment, since malloc(0) may return null. */
struct rattle_block rattle_alloc(size_t size, size_t align) {
    return block_at(malloc(size != 0 ? size : align));
}

/* realloc keeps as many bytes as both blocks have, which are no fewer than `kept`. */
struct rattle_block rattle_realloc(void *at, size_t kept, size_t size, size_t align) {
    (void)kept;
    return block_at(realloc(at, size != 0 ? size : align));
}

void rattle_dealloc(void *at) { free(at); }
