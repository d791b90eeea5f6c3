/* An allocator in place of allocator.c, whose allocations fail when they are told to. */
#include "allocator.h"
#include "check.h"

#include <stdbool.h>

static long left = -1; /* how many allocations succeed from here on; below 0 all do */
static long blocks;    /* how many blocks are allocated */
static size_t asked;   /* how many bytes were asked for */
static long failures;  /* how many allocations failed */

static char nothing;

static bool fails(void) {
    if (left < 0) return false;
    if (left == 0) return true;
    left--;
    return false;
}

struct rattle_block rattle_alloc(size_t size, size_t align) {
    struct rattle_block block = {0, &nothing};
    if (fails()) return block;
    asked += size;
    block.at = malloc(size != 0 ? size : align);
    CHECK(block.at != NULL);
    block.ok = 1;
    blocks++;
    return block;
}

struct rattle_block rattle_realloc(void *at, size_t kept, size_t size, size_t align) {
    struct rattle_block block = {0, &nothing};
    (void)kept;
    if (fails()) return block;
    asked += size;
    block.at = realloc(at, size != 0 ? size : align);
    CHECK(block.at != NULL);
    block.ok = 1;
    return block;
}

void rattle_dealloc(void *at) {
    blocks--;
    free(at);
}

/* Calls until one ends in another result than `out_of_memory`, where one more allocation succeeds each time. Between
 * them `check` looks whether all is as it was. */
#define TRY_UNTIL(type, out_of_memory, call, wanted, check) \
    do {                                                    \
        for (long k = 0;; k++) {                            \
            long before = blocks;                           \
            left = k;                                       \
            type result = (call);                           \
            left = -1;                                      \
            if (result != (out_of_memory)) {                \
                CHECK(result == (wanted));                  \
                failures += k;                              \
                break;                                      \
            }                                               \
            (void)before;                                   \
            check;                                          \
        }                                                   \
    } while (0)
