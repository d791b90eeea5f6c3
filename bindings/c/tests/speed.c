/* How long a question takes from C: nanoseconds a call, the least of 15 runs. It is no test. */
#include "objects.h"

#include <time.h>

enum { RUNS = 15 };

static double now(void) {
    struct timespec t;
    clock_gettime(CLOCK_MONOTONIC, &t);
    return (double)t.tv_sec * 1e9 + (double)t.tv_nsec;
}

/* Prints the least time that a call takes, of `calls` in each run. */
#define TIME(name, calls, call, wanted)                                  \
    do {                                                                 \
        double least = 1e12;                                             \
        for (int run = 0; run < RUNS; run++) {                           \
            double start = now();                                        \
            for (int i = 0; i < (calls); i++) CHECK((call) == (wanted)); \
            double time = (now() - start) / (calls);                     \
            if (time < least) least = time;                              \
        }                                                                \
        printf("%s: %.1f ns\n", name, least);                            \
    } while (0)

static int make_and_free(const globset_set *set) {
    globset_searcher *searcher;
    int result = globset_searcher_new(set, &searcher);
    globset_searcher_free(searcher);
    return result;
}

static void of_few_globs(void) {
    static const char *const globs[] = {"*.c", "*.h", "Makefile"};
    static const char path[] = "src/main.rs";
    globset_searcher *searcher = searcher_of(globs, 3), *empty = searcher_of(globs, 0);
    globset_set *set = set_of(globs, 3);
    globset_glob *glob = glob_of("*.c", 0);
    globset_matcher *matcher;
    const size_t *indexes;
    size_t count;
    CHECK(globset_matcher_new(glob, &matcher) == GLOBSET_OK);
    TIME("matcher, is_match", 200000, globset_matcher_is_match(matcher, path, 11), 0);
    TIME("searcher without globs, is_match", 200000, globset_searcher_is_match(empty, path, 11), 0);
    TIME("searcher of 3 globs, is_match", 200000, globset_searcher_is_match(searcher, path, 11), 0);
    TIME("searcher of 3 globs, matches", 200000, globset_searcher_find(searcher, path, 11, &indexes, &count), 0);
    TIME("set of 3 globs, is_match", 20000, globset_set_is_match(set, path, 11), 0);
    TIME("set of 3 globs, a searcher made and freed", 2000, make_and_free(set), 0);
    globset_matcher_free(matcher);
    globset_glob_free(glob);
    globset_set_free(set);
    globset_searcher_free(searcher);
    globset_searcher_free(empty);
}

/* A hundred globs that need an automaton. */
static void of_many_globs(void) {
    enum { GLOBS = 100 };
    static char texts[GLOBS][32];
    static const char *globs[GLOBS];
    static const char path[] = "src/library/main_42.b";
    for (int i = 0; i < GLOBS; i++) {
        snprintf(texts[i], sizeof texts[i], "src/*%c?%d*.%c", 'a' + i % 26, i, 'a' + i % 7);
        globs[i] = texts[i];
    }
    globset_set *set = set_of(globs, GLOBS);
    globset_searcher *searcher = searcher_of(globs, GLOBS);
    int answer = globset_set_is_match(set, path, 21);
    TIME("searcher of 100 globs, is_match", 20000, globset_searcher_is_match(searcher, path, 21), answer);
    TIME("set of 100 globs, is_match", 2000, globset_set_is_match(set, path, 21), answer);
    TIME("set of 100 globs, a searcher made and freed", 200, make_and_free(set), 0);
    globset_searcher_free(searcher);
    globset_set_free(set);
}

int main(void) {
    of_few_globs();
    of_many_globs();
    return 0;
}
