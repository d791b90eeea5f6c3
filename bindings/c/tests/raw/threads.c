/* Eight threads, one set and one matcher, which each thread borrows. Each has a searcher of its own of both. Those of the
 * set are freed by another thread, after the set. */
#include "raw.h"

#include <pthread.h>

enum { THREADS = 8, ROUNDS = 300, PATHS = 8 };

static raw_set set;
static raw_matcher matcher;
static raw_searcher searchers[THREADS];

static const char *const paths[PATHS] = {"src/a/b/main.c", "x.rs", "a", "b/c/d.txt", "abcabc", "src/zz/q.h", "", "/"};
/* Of each path: how many of the globs below match it, and whether *b*c* does. */
static const size_t counts[PATHS] = {2, 1, 2, 3, 2, 1, 0, 0};
static const int by_matcher[PATHS] = {1, 0, 0, 1, 1, 0, 0, 0};

static void *ask(void *searcher_at) {
    raw_searcher *searcher = searcher_at;
    raw_matcher_searcher of_matcher;
    globset_indexes found;
    CHECK(raw_matcher_searcher_new(matcher, &of_matcher) == GLOBSET_DONE);
    CHECK(raw_searcher_new(set, searcher) == GLOBSET_DONE);
    for (int round = 0; round < ROUNDS; round++) {
        for (int i = 0; i < PATHS; i++) {
            CHECK(raw_matcher_searcher_is_match(&of_matcher, TEXT(paths[i])) ==
                  (by_matcher[i] ? GLOBSET_YES : GLOBSET_NO));
            CHECK(raw_searcher_matches(searcher, TEXT(paths[i]), &found) == GLOBSET_DONE && found.count == counts[i]);
            CHECK(raw_searcher_is_match(searcher, TEXT(paths[i])) == (counts[i] > 0 ? GLOBSET_YES : GLOBSET_NO));
        }
    }
    raw_matcher_searcher_free(of_matcher);
    return NULL;
}

int main(void) {
    static const char *const globs[] = {"a", "*.rs", "src/**/*.{c,h}", "*b*c*", "**/d.*", "[ab]*"};
    pthread_t threads[THREADS];
    set = set_of(globs, 6);
    raw_glob glob = glob_of("*b*c*", 0);
    CHECK(raw_matcher_new(glob, &matcher) == GLOBSET_DONE);
    raw_glob_free(glob);
    for (int i = 0; i < THREADS; i++) CHECK(pthread_create(&threads[i], NULL, ask, &searchers[i]) == 0);
    for (int i = 0; i < THREADS; i++) CHECK(pthread_join(threads[i], NULL) == 0);
    raw_set_free(set);
    for (int i = 0; i < THREADS; i++) {
        CHECK(raw_searcher_is_match(&searchers[i], TEXT(paths[0])) == GLOBSET_YES);
        raw_searcher_free(searchers[i]);
    }
    raw_matcher_free(matcher);
    puts("threads: passed");
    return 0;
}
