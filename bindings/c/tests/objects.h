/* Objects for the tests of globset.h. */
#ifndef OBJECTS_H
#define OBJECTS_H

#include "check.h"

static inline globset_glob *glob_of(const char *text, uint32_t options) {
    globset_glob *glob;
    CHECK(globset_glob_new(TEXT(text), options, NULL, &glob) == GLOBSET_OK);
    return glob;
}

/* The set of globs under the default options. */
static inline globset_set *set_of(const char *const *texts, size_t count) {
    globset_set *set;
    CHECK(globset_set_new(texts, NULL, NULL, count, NULL, NULL, &set) == GLOBSET_OK);
    return set;
}

/* A searcher of this set, which is freed. */
static inline globset_searcher *searcher_of(const char *const *texts, size_t count) {
    globset_set *set = set_of(texts, count);
    globset_searcher *searcher;
    CHECK(globset_searcher_new(set, &searcher) == GLOBSET_OK);
    globset_set_free(set);
    return searcher;
}

/* Whether a searcher finds just these indexes. */
static inline int finds(globset_searcher *searcher, const char *path, const size_t *wanted, size_t wanted_count) {
    const size_t *indexes;
    size_t count;
    CHECK(globset_searcher_find(searcher, TEXT(path), &indexes, &count) == GLOBSET_OK);
    return count == wanted_count && (count == 0 || memcmp(indexes, wanted, count * sizeof *indexes) == 0);
}

#endif
