/* An allocator for `bindings/c/build --allocator`: it counts its blocks. The name of `globset_blocks` begins as those
 * of the library's functions do, so that a test can call it. */
#include "allocator.h"

#include <stdlib.h>

long globset_blocks(void);

static char nothing;
static long blocks;

long globset_blocks(void) { return blocks; }

struct rattle_block rattle_alloc(size_t size, size_t align) {
    struct rattle_block block = {1, malloc(size != 0 ? size : align)};
    if (block.at == NULL) return (struct rattle_block){0, &nothing};
    blocks++;
    return block;
}

struct rattle_block rattle_realloc(void *at, size_t kept, size_t size, size_t align) {
    struct rattle_block block = {1, realloc(at, size != 0 ? size : align)};
    (void)kept;
    return block.at != NULL ? block : (struct rattle_block){0, &nothing};
}

void rattle_dealloc(void *at) {
    blocks--;
    free(at);
}
