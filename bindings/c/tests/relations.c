/* Questions about all paths, through globset.h: each result of each function, but GLOBSET_ENOMEM, which memory.c is for. */
#include "objects.h"

enum { LIMIT = 100000 };

/* A glob, and up to two others. `path` is the only shortest path that they miss or share, or null for none. */
struct row {
    const char *glob, *others[2];
    size_t count;
    uint32_t options, domain;
    const char *path;
};

/* Whether the answer of index 0 has this path, and names no globs. */
static int has(globset_answers *answers, const char *wanted) {
    const char *path = "x";
    const size_t *indexes = NULL;
    size_t length = 7, count = 7;
    int answer = globset_answers_has_path(answers, 0, &path, &length);
    CHECK(answer == globset_answers_has_path(answers, 0, NULL, NULL));
    CHECK(globset_answers_indexes(answers, 0, &indexes, &count) == GLOBSET_OK && indexes != NULL && count == 0);
    if (wanted == NULL) return answer == 0 && path == NULL && length == 0;
    CHECK(globset_answers_has_path(answers, 0, &path, &length) == 1);
    return answer == 1 && length == strlen(wanted) && memcmp(path, wanted, length) == 0;
}

static int is_at_limit(globset_answers *answers, size_t index) {
    const char *path = "x";
    const size_t *indexes = (const size_t *)&path;
    size_t length = 7, count = 7;
    CHECK(globset_answers_has_path(answers, index, &path, &length) == GLOBSET_ELIMIT && path == NULL && length == 0);
    return globset_answers_indexes(answers, index, &indexes, &count) == GLOBSET_ELIMIT && indexes == NULL && count == 0;
}

static int has_no_answer(globset_answers *answers, size_t index) {
    const char *path = "x";
    const size_t *indexes = (const size_t *)&path;
    size_t length = 7, count = 7;
    CHECK(globset_answers_has_path(answers, index, &path, &length) == GLOBSET_EINDEX && path == NULL && length == 0);
    return globset_answers_indexes(answers, index, &indexes, &count) == GLOBSET_EINDEX && indexes == NULL && count == 0;
}

/* The globs are freed before the answers are read. */
static void coverings(void) {
    static const struct row rows[] = {
        {"src/a/*.c", {"docs/**", "src/**"}, 2, 0, GLOBSET_RELATIVE_PATHS, NULL},
        {"[ab]c", {"ac", "b"}, 2, 0, GLOBSET_RELATIVE_PATHS, "bc"},
        {"a", {NULL, NULL}, 0, 0, GLOBSET_ALL_PATHS, "a"},
        {"", {"a", NULL}, 1, 0, GLOBSET_ALL_PATHS, ""},
        {"", {"a", NULL}, 1, 0, GLOBSET_RELATIVE_PATHS, NULL},
        {"a?b", {"a[!/]b", NULL}, 1, 0, GLOBSET_ALL_PATHS, "a/b"},
        {"a?b", {"a[!/]b", NULL}, 1, GLOBSET_LITERAL_SEPARATOR, GLOBSET_ALL_PATHS, NULL},
        {"**/a", {"a", "?*/**/a"}, 2, GLOBSET_LITERAL_SEPARATOR, GLOBSET_RELATIVE_PATHS, NULL},
        {"**/a", {"a", "?*/**/a"}, 2, GLOBSET_LITERAL_SEPARATOR, GLOBSET_ALL_PATHS, "/a"},
    };
    for (size_t i = 0; i < sizeof rows / sizeof *rows; i++) {
        const struct row *row = &rows[i];
        globset_glob *glob = glob_of(row->glob, row->options), *by[2] = {NULL, NULL};
        globset_answers *answers, *at_limit;
        for (size_t k = 0; k < row->count; k++) by[k] = glob_of(row->others[k], row->options);
        const globset_glob *const those[2] = {by[0], by[1]};
        CHECK(globset_covering(glob, row->count > 0 ? those : NULL, row->count, row->domain, LIMIT, &answers) ==
              GLOBSET_OK);
        CHECK(globset_covering(glob, those, row->count, row->domain, 0, &at_limit) == GLOBSET_OK);
        CHECK(those[0] == by[0] && those[1] == by[1]);
        globset_glob_free(glob);
        globset_glob_free(by[0]);
        globset_glob_free(by[1]);
        CHECK(has(answers, row->path) && has_no_answer(answers, 1) && has_no_answer(answers, SIZE_MAX));
        CHECK(is_at_limit(at_limit, 0) && has_no_answer(at_limit, 1) && has(answers, row->path));
        globset_answers_free(answers);
        globset_answers_free(at_limit);
    }
}

static void overlaps(void) {
    static const struct row rows[] = {
        {"*.c", {"*.h", NULL}, 1, 0, GLOBSET_RELATIVE_PATHS, NULL},
        {"a*", {"*b", NULL}, 1, 0, GLOBSET_RELATIVE_PATHS, "ab"},
        {"{a,b}/c", {"[b-d]/*", NULL}, 1, 0, GLOBSET_RELATIVE_PATHS, "b/c"},
        {"a/..", {"a/*", NULL}, 1, 0, GLOBSET_RELATIVE_PATHS, NULL},
        {"a/..", {"a/*", NULL}, 1, 0, GLOBSET_ALL_PATHS, "a/.."},
        {"A", {"a", NULL}, 1, 0, GLOBSET_ALL_PATHS, NULL},
    };
    for (size_t i = 0; i < sizeof rows / sizeof *rows; i++) {
        const struct row *row = &rows[i];
        globset_glob *a = glob_of(row->glob, row->options), *b = glob_of(row->others[0], row->options);
        for (int turned = 0; turned < 2; turned++) {
            globset_answers *answers, *at_limit;
            CHECK(globset_overlap(turned ? b : a, turned ? a : b, row->domain, LIMIT, &answers) == GLOBSET_OK);
            CHECK(globset_overlap(turned ? b : a, turned ? a : b, row->domain, 0, &at_limit) == GLOBSET_OK);
            CHECK(has(answers, row->path) && has_no_answer(answers, 1) && is_at_limit(at_limit, 0));
            globset_answers_free(answers);
            globset_answers_free(at_limit);
        }
        globset_glob_free(a);
        globset_glob_free(b);
    }
}

/* Whether the answer names just these globs, in any order. */
static int names(globset_answers *answers, size_t index, size_t count, size_t least, size_t greatest) {
    const size_t *indexes;
    size_t found;
    CHECK(globset_answers_has_path(answers, index, NULL, NULL) == 0);
    CHECK(globset_answers_indexes(answers, index, &indexes, &found) == GLOBSET_OK && found == count);
    if (count == 0) return 1;
    if (count == 1) return indexes[0] == least && least == greatest;
    return count == 2 && indexes[0] + indexes[1] == least + greatest && (indexes[0] == least || indexes[0] == greatest);
}

/* Rules of which the last that matches decides, as in a file .gitignore, and of which the first does. */
static void never(void) {
    enum { COUNT = 5 };
    static const char *const texts[COUNT] = {"a[!b]", "a[a-z]", "..", "a[!a-z]", "[aa]?"};
    globset_glob *globs[COUNT];
    const globset_glob *those[COUNT];
    globset_answers *last, *first, *none, *at_limit;
    const char *path;
    const size_t *indexes;
    size_t length, count;
    for (size_t i = 0; i < COUNT; i++) those[i] = globs[i] = glob_of(texts[i], 0);
    CHECK(globset_unreachable(those, 4, GLOBSET_LAST_DECIDES, GLOBSET_RELATIVE_PATHS, LIMIT, &last) == GLOBSET_OK);
    CHECK(globset_unreachable(those, COUNT, GLOBSET_FIRST_DECIDES, GLOBSET_ALL_PATHS, LIMIT, &first) == GLOBSET_OK);
    CHECK(globset_unreachable(NULL, 0, GLOBSET_LAST_DECIDES, GLOBSET_ALL_PATHS, LIMIT, &none) == GLOBSET_OK);
    CHECK(globset_unreachable(those, COUNT, GLOBSET_FIRST_DECIDES, GLOBSET_ALL_PATHS, 0, &at_limit) == GLOBSET_OK);
    for (size_t i = 0; i < COUNT; i++) globset_glob_free(globs[i]);
    CHECK(names(last, 0, 2, 1, 3) && names(last, 2, 0, 0, 0) && has_no_answer(last, 4));
    CHECK(globset_answers_has_path(last, 1, &path, &length) == 1 && length == 2 && path[0] == 'a');
    CHECK(path[1] >= 'a' && path[1] <= 'z');
    CHECK(globset_answers_has_path(last, 3, &path, NULL) == 1 && path[0] == 'a' && !(path[1] >= 'a' && path[1] <= 'z'));
    CHECK(globset_answers_indexes(last, 3, &indexes, &count) == GLOBSET_OK && count == 0);
    CHECK(globset_answers_has_path(first, 1, &path, &length) == 1 && length == 2 && memcmp(path, "ab", 2) == 0);
    CHECK(globset_answers_has_path(first, 2, &path, &length) == 1 && length == 2 && memcmp(path, "..", 2) == 0);
    CHECK(names(first, 3, 1, 0, 0) && names(first, 4, 2, 0, 1) && has_no_answer(first, COUNT));
    CHECK(has_no_answer(none, 0));
    for (size_t i = 0; i < COUNT; i++) CHECK(is_at_limit(at_limit, i));
    globset_answers_free(last);
    globset_answers_free(first);
    globset_answers_free(none);
    globset_answers_free(at_limit);
}

/* What is found out about a rule of an ignore file: the number of its line, the only shortest path about which it decides, or
 * null, and the lines of the rules that decide instead, as digits in any order. */
struct found {
    size_t line;
    uint32_t found;
    const char *path, *instead;
};

/* Whether the lines of the rules that decide instead of that of an answer are these digits, in any order. */
static int has_lines(globset_answers *answers, size_t index, const char *wanted) {
    size_t lines[4] = {7, 7, 7, 7}, count = 7, needed = strlen(wanted);
    if (needed > 0)
        CHECK(globset_answers_lines(answers, index, lines, needed - 1, &count) == GLOBSET_EBUFFER && count == needed &&
              lines[0] == 7);
    CHECK(globset_answers_lines(answers, index, needed > 0 ? lines : NULL, needed, &count) == GLOBSET_OK);
    CHECK(count == needed && lines[needed] == 7);
    for (size_t i = 0; i < count; i++) {
        CHECK(lines[i] < 10 && strchr(wanted, (int)lines[i] + '0') != NULL);
        for (size_t k = 0; k < i; k++) CHECK(lines[k] != lines[i]);
    }
    return 1;
}

static int is_found(globset_answers *answers, size_t index, const struct found *wanted) {
    const char *path;
    size_t line = 77, length;
    uint32_t found = 7;
    CHECK(globset_answers_rule(answers, index, &line, &found) == GLOBSET_OK);
    CHECK(line == wanted->line && found == wanted->found && has_lines(answers, index, wanted->instead));
    CHECK(globset_answers_has_path(answers, index, &path, &length) == (wanted->path != NULL));
    return wanted->path == NULL || (length == strlen(wanted->path) && memcmp(path, wanted->path, length) == 0);
}

static int has_no_rule(globset_answers *answers, size_t index) {
    size_t line = 7, count = 7;
    uint32_t found = 7;
    CHECK(globset_answers_rule(answers, index, &line, &found) == GLOBSET_EINDEX && line == 0 && found == 0);
    return globset_answers_lines(answers, index, NULL, 0, &count) == GLOBSET_EINDEX && count == 0;
}

static int is_unknown(globset_answers *answers, size_t index, size_t wanted_line) {
    size_t line = 77, count = 7;
    uint32_t found = 7;
    CHECK(globset_answers_rule(answers, index, &line, &found) == GLOBSET_OK && line == wanted_line);
    CHECK(found == GLOBSET_UNKNOWN && globset_answers_lines(answers, index, NULL, 0, &count) == GLOBSET_ELIMIT);
    return count == 0 && is_at_limit(answers, index);
}

/* The rules of ignore files, by git's rule. The walk is freed before the answers are read. */
static void never_of_files(void) {
    static const struct {
        const char *file;
        uint32_t options, domain;
        struct found rules[3];
    } rows[] = {
        {"*.log\n# a\n!keep.log\n\n*.log\n",
         0,
         1,
         {{1, GLOBSET_COVERED, NULL, "5"}, {3, GLOBSET_COVERED, NULL, "5"}, {5, GLOBSET_DECIDES, ".log", ""}}},
        {"[x\n/src\n!/src/a", 0, 1, {{2, GLOBSET_DECIDES, "src", ""}, {3, GLOBSET_IN_IGNORED, NULL, "2"}}},
        {"out/\n!out/keep\nout/*.o",
         0,
         1,
         {{1, GLOBSET_DECIDES, "out", ""}, {2, GLOBSET_IN_IGNORED, NULL, "1"}, {3, GLOBSET_IN_IGNORED, NULL, "1"}}},
        {"/src/[bc]\n!/src/b\n/src/b/c",
         0,
         1,
         {{1, GLOBSET_DECIDES, "src/c", ""}, {2, GLOBSET_DECIDES, "src/b", ""}, {3, GLOBSET_DECIDES, "src/b/c", ""}}},
        {"[ab]\nb\n!a",
         0,
         0,
         {{1, GLOBSET_COVERED, NULL, "23"}, {2, GLOBSET_DECIDES, "b", ""}, {3, GLOBSET_DECIDES, "a", ""}}},
        {"a/\n!a", 0, 1, {{1, GLOBSET_COVERED, NULL, "2"}, {2, GLOBSET_DECIDES, "a", ""}}},
        {"a\n!a/", 0, 1, {{1, GLOBSET_DECIDES, "a", ""}, {2, GLOBSET_DECIDES, "a", ""}}},
        {"a//b\n..\na",
         0,
         1,
         {{1, GLOBSET_COVERED, NULL, ""}, {2, GLOBSET_COVERED, NULL, ""}, {3, GLOBSET_DECIDES, "a", ""}}},
        {"1\n..", 0, 0, {{1, GLOBSET_DECIDES, "1", ""}, {2, GLOBSET_DECIDES, "..", ""}}},
        {"a\nA", 0, 1, {{1, GLOBSET_DECIDES, "a", ""}, {2, GLOBSET_DECIDES, "A", ""}}},
        {"a1\n!A1\n1", GLOBSET_IGNORE_CASE, 1, {{1, GLOBSET_COVERED, NULL, "2"}}},
        {"# a\n[", 0, 1, {{0, 0, NULL, NULL}}},
    };
    for (size_t i = 0; i < sizeof rows / sizeof *rows; i++) {
        globset_ignore *ignore;
        globset_answers *answers, *at_limit;
        size_t count = 0;
        CHECK(globset_ignore_new(rows[i].options, &ignore) == GLOBSET_OK);
        CHECK(globset_ignore_add_file(ignore, TEXT("*\n")) == GLOBSET_OK);
        CHECK(globset_ignore_add_file(ignore, TEXT(rows[i].file)) == GLOBSET_OK);
        CHECK(globset_ignore_unreachable(ignore, 1, rows[i].domain, LIMIT, &answers) == GLOBSET_OK);
        CHECK(globset_ignore_unreachable(ignore, 1, rows[i].domain, 0, &at_limit) == GLOBSET_OK);
        globset_ignore_free(ignore);
        for (; count < 3 && rows[i].rules[count].line > 0; count++) {
            CHECK(is_found(answers, count, &rows[i].rules[count]));
            CHECK(is_unknown(at_limit, count, rows[i].rules[count].line));
        }
        CHECK(has_no_rule(answers, 3) && has_no_rule(answers, SIZE_MAX) && has_no_answer(answers, 3));
        if (count == 0) CHECK(has_no_rule(answers, 0) && has_no_rule(at_limit, 0) && has_no_answer(answers, 0));
        globset_answers_free(answers);
        globset_answers_free(at_limit);
    }
}

/* Files and domains that are not there, and answers about globs, which are about no rule. */
static void no_rules(void) {
    globset_glob *glob = glob_of("a", 0);
    globset_ignore *ignore;
    globset_answers *answers = (globset_answers *)glob;
    CHECK(globset_ignore_new(0, &ignore) == GLOBSET_OK);
    CHECK(globset_ignore_unreachable(ignore, 0, 0, LIMIT, &answers) == GLOBSET_EINDEX && answers == NULL);
    CHECK(globset_ignore_add_file(ignore, TEXT("a")) == GLOBSET_OK);
    CHECK(globset_ignore_unreachable(ignore, 1, 1, LIMIT, &answers) == GLOBSET_EINDEX);
    CHECK(globset_ignore_unreachable(ignore, SIZE_MAX, 1, LIMIT, &answers) == GLOBSET_EINDEX);
    CHECK(globset_ignore_unreachable(ignore, 0, 2, LIMIT, &answers) == GLOBSET_EOPTIONS && answers == NULL);
    CHECK(globset_ignore_unreachable(ignore, 0, UINT32_MAX, LIMIT, &answers) == GLOBSET_EOPTIONS);
    CHECK(globset_overlap(glob, glob, 0, LIMIT, &answers) == GLOBSET_OK && has_no_rule(answers, 0));
    globset_answers_free(answers);
    globset_ignore_free(ignore);
    globset_glob_free(glob);
}

/* Numbers that stand for no domain or choice. */
static void unknown_numbers(void) {
    globset_glob *glob = glob_of("a", 0);
    const globset_glob *const globs[1] = {glob};
    globset_answers *answers = (globset_answers *)glob;
    CHECK(globset_covering(glob, globs, 1, 2, LIMIT, &answers) == GLOBSET_EOPTIONS && answers == NULL);
    CHECK(globset_overlap(glob, glob, UINT32_MAX, LIMIT, &answers) == GLOBSET_EOPTIONS);
    CHECK(globset_unreachable(globs, 1, 0, 2, LIMIT, &answers) == GLOBSET_EOPTIONS);
    CHECK(globset_unreachable(globs, 1, 2, 0, LIMIT, &answers) == GLOBSET_EOPTIONS && answers == NULL);
    globset_glob_free(glob);
}

int main(void) {
    coverings();
    overlaps();
    never();
    never_of_files();
    no_rules();
    unknown_numbers();
    puts("relations: passed");
    return 0;
}
