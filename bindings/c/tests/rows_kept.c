/* What malloc is asked for rows, beside what globset_builder_set_dfa_size_limit and globset_ignore_set_dfa_size_limit of
 * globset.h say of it. The library runs over the functions below in place of allocator.c. */
#include "allocator.h"
#include "objects.h"

#include <stdint.h>

enum { BEFORE = 16, PATHS = 3000 };

static size_t held; /* how many bytes are allocated */
static size_t most; /* and the most since it was set */

static char nothing;

/* A block has its size before it. */
static struct rattle_block block_at(char *at, size_t size) {
    struct rattle_block block = {0, &nothing};
    if (at == NULL) return block;
    memcpy(at, &size, sizeof size);
    held += size;
    if (held > most) most = held;
    block.ok = 1;
    block.at = at + BEFORE;
    return block;
}

static size_t size_of(void *at) {
    size_t size;
    memcpy(&size, (char *)at - BEFORE, sizeof size);
    return size;
}

struct rattle_block rattle_alloc(size_t size, size_t align) {
    CHECK(align <= BEFORE);
    return block_at(malloc(BEFORE + size), size);
}

struct rattle_block rattle_realloc(void *at, size_t kept, size_t size, size_t align) {
    size_t old = size_of(at);
    (void)kept;
    CHECK(align <= BEFORE);
    char *moved = realloc((char *)at - BEFORE, BEFORE + size);
    if (moved != NULL) held -= old;
    return block_at(moved, size);
}

void rattle_dealloc(void *at) {
    held -= size_of(at);
    free((char *)at - BEFORE);
}

/* The globs `*a<number>*b*`, and an upper bound of the states of their automaton. */
static globset_set *set_with(size_t globs, size_t limit, size_t *states) {
    globset_builder *builder;
    globset_set *set;
    *states = 0;
    CHECK(globset_builder_new(&builder) == GLOBSET_OK);
    CHECK(globset_builder_set_dfa_size_limit(builder, limit) == GLOBSET_OK);
    for (size_t i = 0; i < globs; i++) {
        char text[32];
        int length = snprintf(text, sizeof text, "*a%zu*b*", i);
        globset_glob *glob = glob_of(text, 0);
        CHECK(globset_builder_add(builder, glob) == GLOBSET_OK);
        globset_glob_free(glob);
        *states += 4 * (size_t)length + 4;
    }
    CHECK(globset_builder_build(builder, &set) == GLOBSET_OK);
    globset_builder_free(builder);
    return set;
}

/* A path that leads to many rows. */
static void path_of(size_t number, char *path, size_t size) {
    snprintf(path, size, "src%zu/a%zu/xa%zuy/%zu.b%zu", number % 7, number * 31 % 997, number * 17 % 89, number,
             number % 5);
}

/* What a cache takes besides its rows. */
static size_t besides(size_t states, size_t globs) { return 1024 + (states + globs) / 4; }

static void sets(size_t globs, size_t paths, size_t limit) {
    size_t states, before, taken;
    globset_searcher *searcher;
    globset_set *set = set_with(globs, limit, &states);
    char path[128];

    /* A searcher takes its memory when it is made, and leaves none in its set. */
    before = held;
    CHECK(globset_searcher_new(set, &searcher) == GLOBSET_OK);
    taken = held - before;
    CHECK(taken <= limit + besides(states, globs) + 9 * globs + states / 4 + 1024);
    for (size_t i = 0; i < paths; i++) {
        path_of(i, path, sizeof path);
        CHECK(globset_searcher_is_match(searcher, TEXT(path)) >= 0);
    }
    CHECK(held - before == taken);
    globset_searcher_free(searcher);
    CHECK(held == before);

    /* A question also takes sets of states, while it is asked. */
    most = held;
    for (size_t i = 0; i < paths; i++) {
        path_of(i, path, sizeof path);
        CHECK(globset_set_is_match(set, TEXT(path)) >= 0);
        CHECK(held - before <= limit + 4 * besides(states, globs));
    }
    CHECK(most - before <= limit + 4 * besides(states, globs) + states / 2 + globs + 1024);
    if (limit == 0) CHECK(held == before);
    globset_set_free(set);
    CHECK(held == 0);
}

/* A file of so many lines, with so many bytes for rows. Returns the bytes that it has after the questions. */
static size_t ignore_file(const char *file, size_t states, size_t lines, size_t limit) {
    size_t before, after;
    globset_ignore *ignore;
    char path[128];
    CHECK(globset_ignore_new(0, &ignore) == GLOBSET_OK);
    if (limit != SIZE_MAX) CHECK(globset_ignore_set_dfa_size_limit(ignore, limit) == GLOBSET_OK);
    CHECK(globset_ignore_add_file(ignore, TEXT(file)) == GLOBSET_OK);
    before = held;
    for (size_t i = 0; i < 1000; i++) {
        path_of(i, path, sizeof path);
        CHECK(globset_ignore_is_ignored(ignore, TEXT(path), 0, GLOBSET_BY_GIT, NULL) >= 0);
        if (limit != SIZE_MAX) CHECK(held - before <= limit + 4 * besides(states, lines) + sizeof path * 2);
    }
    after = held;
    globset_ignore_free(ignore);
    CHECK(held == 0);
    return after;
}

static void ignore_files(void) {
    static char lines[200 * 16];
    size_t states = 0, length = 0, small, large;
    CHECK(ignore_file("*.o\n/build\n!keep.o\n**/x/**\n", 200, 4, SIZE_MAX) <= 65536);
    for (int i = 0; i < 200; i++) {
        length += (size_t)snprintf(lines + length, sizeof lines - length, "*a%d*b*\n", i);
        states = 4 * length;
    }
    /* Rows are taken as paths need them. */
    small = ignore_file(lines, states, 200, 32768);
    large = ignore_file(lines, states, 200, 1 << 22);
    CHECK(ignore_file(lines, states, 200, 0) < small && small < large);
}

int main(void) {
    static const size_t limits[] = {0, 1 << 16, 1 << 20, 1 << 24};
    for (size_t i = 0; i < sizeof limits / sizeof *limits; i++) {
        sets(1, PATHS, limits[i]);
        sets(100, PATHS, limits[i]);
        sets(100000, 10, limits[i]);
    }
    ignore_files();
    printf("rows_kept: passed\n");
    return 0;
}
