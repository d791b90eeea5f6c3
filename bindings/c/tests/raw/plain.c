/* Plain calls: what each answers, and eight threads that ask one set, which needs an automaton. Each
 * thread compares with a searcher of its own. They make so many calls that caches of rows are published. It is run
 * without thread sanitizers, as rows.c. */
#include "raw.h"

#include <pthread.h>

enum { THREADS = 8, ROUNDS = 4000, GLOBS = 60, ROOM = 8 };

static raw_set set;

static globset_status is_match(raw_set asked, const char *path) {
    globset_lent lent = raw_lend(asked.object);
    return globset_raw_set_is_match_plain(&lent, raw_bytes(path), strlen(path));
}

static globset_status matches_all(raw_set asked, const char *path) {
    globset_lent lent = raw_lend(asked.object);
    return globset_raw_set_matches_all_plain(&lent, raw_bytes(path), strlen(path));
}

static globset_status matches(raw_set asked, const char *path, size_t *room, size_t size, size_t *needed) {
    globset_lent lent = raw_lend(asked.object);
    return globset_raw_set_matches_plain(&lent, raw_bytes(path), strlen(path), room, size, needed);
}

static void answers(void) {
    static const char *const globs[] = {"*.c", "src/*", "**/..", "*a*b*"};
    raw_set four = set_of(globs, 4), two = set_of(globs, 2), none = set_of(globs, 0);
    size_t room[ROOM], needed = 9;
    CHECK(is_match(four, "a.c") == GLOBSET_YES && is_match(four, "x/..") == GLOBSET_NO);
    CHECK(is_match(none, "a.c") == GLOBSET_NO && matches_all(none, "a.c") == GLOBSET_YES);
    CHECK(matches_all(two, "src/x.c") == GLOBSET_YES && matches_all(two, "x.c") == GLOBSET_NO);
    for (size_t i = 0; i < ROOM; i++) room[i] = 7;
    CHECK(matches(four, "src/ab.c", room, 2, &needed) == GLOBSET_TOO_SMALL && needed == 3 && room[0] == 7);
    CHECK(matches(four, "src/ab.c", room, ROOM, &needed) == GLOBSET_DONE && needed == 3);
    CHECK(room[0] == 0 && room[1] == 1 && room[2] == 3 && room[3] == 7);
    CHECK(matches(none, "a.c", room, 0, &needed) == GLOBSET_DONE && needed == 0);
    raw_set_free(four);
    raw_set_free(two);
    raw_set_free(none);
}

static void matchers(void) {
    raw_glob glob = glob_of("*b*c*", 0);
    raw_matcher matcher;
    CHECK(raw_matcher_new(glob, &matcher) == GLOBSET_DONE);
    globset_lent lent = raw_lend(matcher.object);
    CHECK(globset_raw_matcher_is_match_plain(&lent, raw_bytes("abc"), 3) == GLOBSET_YES);
    CHECK(globset_raw_matcher_is_match_plain(&lent, raw_bytes("acb"), 3) == GLOBSET_NO);
    raw_matcher_free(matcher);
    raw_glob_free(glob);
}

/* A glob in the place of a set and of a matcher. Results are as they were. */
static void wrong_kinds(void) {
    raw_glob glob = glob_of("*.c", 0);
    globset_lent lent = raw_lend(glob.object);
    size_t room[1] = {7}, needed = 9;
    CHECK(globset_raw_matcher_is_match_plain(&lent, raw_bytes("a"), 1) == GLOBSET_WRONG_KIND);
    CHECK(globset_raw_set_is_match_plain(&lent, raw_bytes("a"), 1) == GLOBSET_WRONG_KIND);
    CHECK(globset_raw_set_matches_all_plain(&lent, raw_bytes("a"), 1) == GLOBSET_WRONG_KIND);
    CHECK(globset_raw_set_matches_plain(&lent, raw_bytes("a"), 1, room, 1, &needed) == GLOBSET_WRONG_KIND);
    CHECK(room[0] == 7 && needed == 9);
    raw_glob_free(glob);
}

static void *ask(void *shift) {
    raw_searcher searcher;
    globset_indexes found;
    size_t room[GLOBS], needed = 0;
    CHECK(raw_searcher_new(set, &searcher) == GLOBSET_DONE);
    for (int round = 0; round < ROUNDS; round++) {
        int letter = round + *(int *)shift;
        char path[32];
        snprintf(path, sizeof path, "%c%c/%c%c%c.%d", 'a' + letter % 26, 'a' + letter * 3 % 26, 'a' + letter * 5 % 26,
                 'a' + letter * 7 % 26, 'a' + letter * 11 % 26, round % 100);
        CHECK(raw_searcher_matches(&searcher, TEXT(path), &found) == GLOBSET_DONE);
        CHECK(is_match(set, path) == (found.count > 0 ? GLOBSET_YES : GLOBSET_NO));
        CHECK(matches_all(set, path) == GLOBSET_NO);
        CHECK(matches(set, path, room, GLOBS, &needed) == GLOBSET_DONE && needed == found.count);
        CHECK(memcmp(room, found.at, needed * sizeof *room) == 0);
    }
    raw_searcher_free(searcher);
    return NULL;
}

static void threads(void) {
    static char texts[GLOBS][16];
    static const char *globs[GLOBS];
    static int shifts[THREADS];
    pthread_t asking[THREADS];
    for (int i = 0; i < GLOBS; i++) {
        snprintf(texts[i], sizeof texts[i], "*%c*%c*%c*", 'a' + i % 26, 'a' + (i * 7 + 3) % 26,
                 'a' + (i * 11 + 5) % 26);
        globs[i] = texts[i];
    }
    set = set_of(globs, GLOBS);
    for (int i = 0; i < THREADS; i++) {
        shifts[i] = i;
        CHECK(pthread_create(&asking[i], NULL, ask, &shifts[i]) == 0);
    }
    for (int i = 0; i < THREADS; i++) CHECK(pthread_join(asking[i], NULL) == 0);
    raw_set_free(set);
}

int main(void) {
    answers();
    matchers();
    wrong_kinds();
    threads();
    puts("plain: passed");
    return 0;
}
