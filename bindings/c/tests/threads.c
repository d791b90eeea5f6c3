/* Eight threads read one set and one glob, and each makes a searcher and a matcher of its own. The searchers are freed
 * by another thread, after the set. Then eight threads make a walk each, which another thread uses on and frees. */
#include "objects.h"

#include <pthread.h>

enum { THREADS = 8, ROUNDS = 300, PATHS = 8 };

static globset_set *set;
static globset_glob *glob;
static globset_searcher *searchers[THREADS];
static globset_ignore *ignores[THREADS];

static const char *const paths[PATHS] = {"src/a/b/main.c", "x.rs", "a", "b/c/d.txt", "abcabc", "src/zz/q.h", "", "/"};
/* Of each path: how many of the globs below match it, and whether *b*c* does. */
static const size_t counts[PATHS] = {2, 1, 2, 3, 2, 1, 0, 0};
static const int by_matcher[PATHS] = {1, 0, 0, 1, 1, 0, 0, 0};

static void *ask(void *searcher_at) {
    globset_searcher *searcher;
    globset_matcher *matcher;
    const size_t *indexes;
    size_t count;
    CHECK(globset_searcher_new(set, &searcher) == GLOBSET_OK && globset_matcher_new(glob, &matcher) == GLOBSET_OK);
    for (int round = 0; round < ROUNDS; round++) {
        for (int i = 0; i < PATHS; i++) {
            CHECK(globset_searcher_find(searcher, TEXT(paths[i]), &indexes, &count) == GLOBSET_OK);
            CHECK(count == counts[i] && globset_searcher_is_match(searcher, TEXT(paths[i])) == (counts[i] > 0));
            CHECK(globset_matcher_is_match(matcher, TEXT(paths[i])) == by_matcher[i]);
            if (round < 10) CHECK(globset_set_is_match(set, TEXT(paths[i])) == (counts[i] > 0));
        }
    }
    CHECK(globset_set_length(set) == 6);
    globset_matcher_free(matcher);
    *(globset_searcher **)searcher_at = searcher;
    return NULL;
}

static void *walk(void *ignore_at) {
    globset_ignore *ignore;
    CHECK(globset_ignore_new(0, &ignore) == GLOBSET_OK);
    CHECK(globset_ignore_add_file(ignore, TEXT("*a*b*\n!/src/ab\n")) == GLOBSET_OK);
    for (int round = 0; round < ROUNDS; round++) {
        CHECK(globset_ignore_enter(ignore, TEXT("src")) == GLOBSET_OK);
        CHECK(globset_ignore_is_ignored(ignore, TEXT("xab"), 0, GLOBSET_BY_GIT, NULL) == 1);
        CHECK(globset_ignore_is_ignored(ignore, TEXT("ab"), 0, GLOBSET_BY_GIT, NULL) == 0);
        CHECK(globset_ignore_leave(ignore) == GLOBSET_OK);
    }
    CHECK(globset_ignore_enter(ignore, TEXT("src")) == GLOBSET_OK);
    *(globset_ignore **)ignore_at = ignore;
    return NULL;
}

static void walks(void) {
    pthread_t threads[THREADS];
    for (int i = 0; i < THREADS; i++) CHECK(pthread_create(&threads[i], NULL, walk, &ignores[i]) == 0);
    for (int i = 0; i < THREADS; i++) CHECK(pthread_join(threads[i], NULL) == 0);
    for (int i = 0; i < THREADS; i++) {
        CHECK(globset_ignore_is_ignored(ignores[i], TEXT("ab"), 0, GLOBSET_BY_GIT, NULL) == 0);
        CHECK(globset_ignore_leave(ignores[i]) == GLOBSET_OK);
        CHECK(globset_ignore_is_ignored(ignores[i], TEXT("ab"), 0, GLOBSET_BY_GIT, NULL) == 1);
        globset_ignore_free(ignores[i]);
    }
}

int main(void) {
    static const char *const globs[] = {"a", "*.rs", "src/**/*.{c,h}", "*b*c*", "**/d.*", "[ab]*"};
    pthread_t threads[THREADS];
    set = set_of(globs, 6);
    glob = glob_of("*b*c*", 0);
    for (int i = 0; i < THREADS; i++) CHECK(pthread_create(&threads[i], NULL, ask, &searchers[i]) == 0);
    for (int i = 0; i < THREADS; i++) CHECK(pthread_join(threads[i], NULL) == 0);
    globset_set_free(set);
    globset_glob_free(glob);
    for (int i = 0; i < THREADS; i++) {
        CHECK(globset_searcher_is_match(searchers[i], TEXT(paths[0])) == 1);
        globset_searcher_free(searchers[i]);
    }
    walks();
    puts("threads: passed");
    return 0;
}
