/* Questions about all paths: globset_raw_covering, globset_raw_overlap and globset_raw_unreachable, with each status that
 * they and globset_raw_answers_at have, but GLOBSET_OUT_OF_MEMORY, which memory.c is for. */
#include "raw.h"

enum { LIMIT = 1000 };

/* Whether the only answer has this path, which may be null for none. */
static int has(raw_answers *answers, const char *text) {
    globset_bytes path;
    globset_indexes indexes;
    globset_status status = raw_answers_at(answers, 0, &path, &indexes);
    CHECK(indexes.count == 0 && raw_answers_at(answers, 1, &path, &indexes) == GLOBSET_BAD_INDEX);
    CHECK(path.count == 0 && indexes.count == 0);
    CHECK(raw_answers_at(answers, SIZE_MAX, &path, &indexes) == GLOBSET_BAD_INDEX);
    CHECK(raw_answers_at(answers, 0, &path, &indexes) == status);
    if (text == NULL) return status == GLOBSET_NO && path.count == 0;
    return status == GLOBSET_YES && path.count == strlen(text) && memcmp(path.at, text, path.count) == 0;
}

/* Whether the limit was reached for the only answer. */
static int has_limit(raw_answers *answers) {
    globset_bytes path;
    globset_indexes indexes;
    CHECK(raw_answers_at(answers, 1, &path, &indexes) == GLOBSET_BAD_INDEX);
    return raw_answers_at(answers, 0, &path, &indexes) == GLOBSET_LIMIT_REACHED && path.count + indexes.count == 0;
}

/* Globs that cover another, and globs that miss just one of its shortest paths. The globs are freed first. */
static void coverings(void) {
    static const struct {
        const char *glob, *by[2];
        uint32_t domain;
        const char *path;
    } rows[] = {
        {"src/a/*.c", {"docs/**", "src/**"}, GLOBSET_RELATIVE_PATHS, NULL},
        {"[ab]c", {"ac", "x"}, GLOBSET_RELATIVE_PATHS, "bc"},
        {"{a,bb}", {"bb", "*b"}, GLOBSET_ALL_PATHS, "a"},
        {"..", {"x", "y"}, GLOBSET_ALL_PATHS, ".."},
        {"..", {"x", "y"}, GLOBSET_RELATIVE_PATHS, NULL},
        {"", {"x", "y"}, GLOBSET_ALL_PATHS, ""},
        {"", {"x", "y"}, GLOBSET_RELATIVE_PATHS, NULL},
    };
    for (size_t i = 0; i < sizeof rows / sizeof *rows; i++) {
        raw_glob glob = glob_of(rows[i].glob, 0), by[2] = {glob_of(rows[i].by[0], 0), glob_of(rows[i].by[1], 0)};
        raw_answers told, at_limit;
        CHECK(raw_covering(glob, by, 2, rows[i].domain, LIMIT, &told) == GLOBSET_DONE);
        CHECK(raw_covering(glob, by, 2, rows[i].domain, 0, &at_limit) == GLOBSET_DONE);
        raw_glob_free(glob);
        raw_glob_free(by[0]);
        raw_glob_free(by[1]);
        CHECK(has(&told, rows[i].path) && has_limit(&at_limit) && has(&told, rows[i].path));
        raw_answers_free(told);
        raw_answers_free(at_limit);
    }
}

/* A glob may stand in each place of a call, and a list may be empty. */
static void one_glob_in_all_places(void) {
    raw_glob glob = glob_of("a", 0), by[2];
    raw_answers told;
    by[0] = by[1] = glob;
    CHECK(raw_covering(glob, by, 2, GLOBSET_ALL_PATHS, LIMIT, &told) == GLOBSET_DONE && has(&told, NULL));
    raw_answers_free(told);
    CHECK(raw_covering(glob, by, 0, GLOBSET_ALL_PATHS, LIMIT, &told) == GLOBSET_DONE && has(&told, "a"));
    raw_answers_free(told);
    CHECK(raw_overlap(glob, glob, GLOBSET_RELATIVE_PATHS, LIMIT, &told) == GLOBSET_DONE && has(&told, "a"));
    raw_answers_free(told);
    raw_glob_free(glob);
}

static void overlaps(void) {
    static const struct {
        const char *a, *b;
        uint32_t domain;
        const char *path;
    } rows[] = {
        {"*.c", "*.h", GLOBSET_RELATIVE_PATHS, NULL},
        {"a*", "*b", GLOBSET_RELATIVE_PATHS, "ab"},
        {"*b", "a*", GLOBSET_ALL_PATHS, "ab"},
        {"{a,b}/c", "[b-d]/*", GLOBSET_RELATIVE_PATHS, "b/c"},
        {"a/..", "a/*", GLOBSET_RELATIVE_PATHS, NULL},
        {"a/..", "a/*", GLOBSET_ALL_PATHS, "a/.."},
        {"a\xc3\xa9", "a?[!x]", GLOBSET_ALL_PATHS, "a\xc3\xa9"},
    };
    for (size_t i = 0; i < sizeof rows / sizeof *rows; i++) {
        raw_glob a = glob_of(rows[i].a, 0), b = glob_of(rows[i].b, 0);
        raw_answers told, at_limit;
        CHECK(raw_overlap(a, b, rows[i].domain, LIMIT, &told) == GLOBSET_DONE);
        CHECK(raw_overlap(a, b, rows[i].domain, 0, &at_limit) == GLOBSET_DONE);
        raw_glob_free(a);
        raw_glob_free(b);
        CHECK(has(&told, rows[i].path) && has_limit(&at_limit) && has(&told, rows[i].path));
        raw_answers_free(told);
        raw_answers_free(at_limit);
    }
}

/* Which globs of a list never decide, and which cover them. */
static void never(void) {
    static const char *const texts[] = {"a[!b]", "a[a-z]", "b", "a[!a-z]", "..", "b"};
    enum { COUNT = 6 };
    raw_glob globs[COUNT];
    raw_answers last, first, none, at_limit;
    globset_bytes path;
    globset_indexes indexes;
    for (size_t i = 0; i < COUNT; i++) globs[i] = glob_of(texts[i], 0);
    CHECK(raw_unreachable(globs, COUNT, GLOBSET_LAST_DECIDES, GLOBSET_RELATIVE_PATHS, LIMIT, &last) == GLOBSET_DONE);
    CHECK(raw_unreachable(globs, COUNT, GLOBSET_FIRST_DECIDES, GLOBSET_RELATIVE_PATHS, LIMIT, &first) == GLOBSET_DONE);
    CHECK(raw_unreachable(globs, 0, GLOBSET_LAST_DECIDES, GLOBSET_ALL_PATHS, LIMIT, &none) == GLOBSET_DONE);
    CHECK(raw_unreachable(globs, COUNT, GLOBSET_FIRST_DECIDES, GLOBSET_ALL_PATHS, 0, &at_limit) == GLOBSET_DONE);
    for (size_t i = 0; i < COUNT; i++) raw_glob_free(globs[i]);
    CHECK(raw_answers_lines(&last, &indexes) == GLOBSET_DONE && indexes.count == 0);
    CHECK(raw_answers_at(&last, 0, &path, &indexes) == GLOBSET_NO && path.count == 0 && indexes.count == 2);
    CHECK(indexes.at[0] + indexes.at[1] == 4 && (indexes.at[0] == 1 || indexes.at[0] == 3));
    CHECK(raw_answers_at(&last, 1, &path, &indexes) == GLOBSET_YES && indexes.count == 0 && path.count == 2);
    CHECK(path.at[0] == 'a' && path.at[1] >= 'a' && path.at[1] <= 'z');
    CHECK(raw_answers_at(&last, 2, &path, &indexes) == GLOBSET_NO && indexes.count == 1 && indexes.at[0] == 5);
    CHECK(raw_answers_at(&last, 4, &path, &indexes) == GLOBSET_NO && indexes.count == 0);
    CHECK(raw_answers_at(&last, 5, &path, &indexes) == GLOBSET_YES && path.count == 1 && path.at[0] == 'b');
    CHECK(raw_answers_at(&last, COUNT, &path, &indexes) == GLOBSET_BAD_INDEX && path.count + indexes.count == 0);
    CHECK(raw_answers_at(&first, 1, &path, &indexes) == GLOBSET_YES && path.count == 2);
    CHECK(path.at[0] == 'a' && path.at[1] == 'b');
    CHECK(raw_answers_at(&first, 5, &path, &indexes) == GLOBSET_NO && indexes.count == 1 && indexes.at[0] == 2);
    CHECK(raw_answers_at(&none, 0, &path, &indexes) == GLOBSET_BAD_INDEX);
    for (size_t i = 0; i < COUNT; i++)
        CHECK(raw_answers_at(&at_limit, i, &path, &indexes) == GLOBSET_LIMIT_REACHED &&
              path.count + indexes.count == 0);
    raw_answers_free(last);
    raw_answers_free(first);
    raw_answers_free(none);
    raw_answers_free(at_limit);
}

/* Numbers that stand for nothing, which are looked at first, and objects of another kind. No answers are made. */
static void refused(void) {
    static const char *const texts[] = {"a"};
    raw_set set = set_of(texts, 1);
    raw_glob glob = glob_of("a", 0), set_as_glob = {set.object}, globs[2] = {glob, set_as_glob};
    raw_answers none = {{&none}}, told, glob_as_answers = {glob.object};
    globset_bytes path;
    globset_indexes indexes;
    for (uint32_t wrong = 2; wrong != 0; wrong *= 2) {
        CHECK(raw_covering(set_as_glob, globs, 2, wrong, LIMIT, &none) == GLOBSET_UNKNOWN_OPTION);
        CHECK(raw_overlap(glob, set_as_glob, wrong, LIMIT, &none) == GLOBSET_UNKNOWN_OPTION);
        CHECK(raw_unreachable(globs, 2, 0, wrong, LIMIT, &none) == GLOBSET_UNKNOWN_OPTION);
        CHECK(raw_unreachable(globs, 1, wrong, 0, LIMIT, &none) == GLOBSET_UNKNOWN_OPTION);
    }
    CHECK(raw_covering(set_as_glob, globs, 1, 0, LIMIT, &none) == GLOBSET_WRONG_KIND);
    CHECK(raw_covering(glob, globs, 2, 0, LIMIT, &none) == GLOBSET_WRONG_KIND);
    CHECK(raw_overlap(glob, set_as_glob, 0, LIMIT, &none) == GLOBSET_WRONG_KIND);
    CHECK(raw_overlap(set_as_glob, glob, 0, LIMIT, &none) == GLOBSET_WRONG_KIND);
    CHECK(raw_unreachable(globs, 2, 0, 0, LIMIT, &none) == GLOBSET_WRONG_KIND && none.object.at == &none);
    CHECK(raw_answers_at(&glob_as_answers, 0, &path, &indexes) == GLOBSET_WRONG_KIND);
    CHECK(path.count == 0 && indexes.count == 0 && glob_as_answers.object.at == glob.object.at);
    CHECK(raw_answers_lines(&glob_as_answers, &indexes) == GLOBSET_WRONG_KIND && indexes.count == 0);
    CHECK(raw_covering(glob, globs, 1, 0, LIMIT, &told) == GLOBSET_DONE);
    const void *at = told.object.at;
    raw_searcher told_as_searcher = {told.object};
    raw_set told_as_set = {told.object};
    CHECK(raw_searcher_is_match(&told_as_searcher, TEXT("a")) == GLOBSET_WRONG_KIND);
    CHECK(raw_searcher_new(told_as_set, &told_as_searcher) == GLOBSET_WRONG_KIND);
    CHECK(has(&told, NULL) && told.object.at == at);
    raw_answers_free(told);
    raw_glob_free(glob);
    raw_set_free(set);
}

int main(void) {
    coverings();
    one_glob_in_all_places();
    overlaps();
    never();
    refused();
    puts("relations: passed");
    return 0;
}
