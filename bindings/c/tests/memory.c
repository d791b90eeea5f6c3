/* Memory that runs out: from the k-th allocation on, each fails, for k = 0, 1, 2, .. until none fails. Each call then
 * ends in GLOBSET_ENOMEM, all objects are as they were and can be used on, and all memory is given back. */
#include "failing.h"

#define TRY(call, wanted, check) TRY_UNTIL(int, GLOBSET_ENOMEM, call, wanted, check)

static const char *const globs[] = {"a", "*.rs", "src/**/*.{c,h}", "*b*c*", "**/d.*", "[ab]*"};
enum { GLOBS = sizeof globs / sizeof *globs };

static void try_texts(void) {
    globset_error error = {77, 78, 79, 80};
    char buffer[256];
    size_t length = 9;
    globset_glob *glob = (globset_glob *)&error;
    TRY(globset_glob_new(TEXT("{a,b"), 0, &error, &glob), GLOBSET_EGLOB,
        CHECK(error.kind == 0 && glob == NULL && blocks == before));
    TRY(globset_error_text(&error, TEXT("{a,b"), buffer, sizeof buffer, &length), GLOBSET_OK,
        CHECK(blocks == before && length == 0));
    TRY(globset_escape(TEXT("a*b"), buffer, sizeof buffer, &length), GLOBSET_OK,
        CHECK(blocks == before && length == 0));
    TRY(globset_glob_new(TEXT("*.rs"), 0, &error, &glob), GLOBSET_OK, CHECK(glob == NULL && blocks == before));
    TRY(globset_glob_regex(glob, buffer, sizeof buffer, &length), GLOBSET_OK, CHECK(blocks == before && length == 0));
    TRY(globset_glob_text(glob, buffer, sizeof buffer, &length), GLOBSET_OK, CHECK(blocks == before && length == 0));
    globset_glob_free(glob);
}

static void try_builder(void) {
    globset_builder *builder;
    globset_set *set;
    TRY(globset_builder_new(&builder), GLOBSET_OK, CHECK(builder == NULL && blocks == before));
    for (int i = 0; i < GLOBS; i++) {
        globset_glob *glob;
        TRY(globset_glob_new(TEXT(globs[i]), 0, NULL, &glob), GLOBSET_OK, CHECK(glob == NULL && blocks == before));
        TRY(globset_builder_add(builder, glob), GLOBSET_OK, CHECK(blocks == before));
        globset_glob_free(glob);
    }
    TRY(globset_builder_build(builder, &set), GLOBSET_OK, CHECK(set == NULL && blocks == before));
    CHECK(globset_set_length(set) == GLOBS);
    globset_builder_free(builder);
    globset_set_free(set);
}

/* Once a matcher is made, no question takes memory. */
static void try_matcher(void) {
    globset_glob *glob;
    globset_matcher *matcher;
    TRY(globset_glob_new(TEXT("*b*c*"), 0, NULL, &glob), GLOBSET_OK, );
    TRY(globset_matcher_new(glob, &matcher), GLOBSET_OK, CHECK(matcher == NULL && blocks == before));
    globset_glob_free(glob);
    left = 0;
    CHECK(globset_matcher_is_match(matcher, "abc", 3) == 1 && globset_matcher_is_match(matcher, "acb", 3) == 0);
    left = -1;
    globset_matcher_free(matcher);
}

/* A set in one call, which then has all of its globs, and a wrong text. */
static globset_set *try_set(void) {
    static const char *const wrong[] = {"a", "*b*", "{"};
    globset_error error;
    globset_set *set;
    size_t index;
    TRY(globset_set_new(wrong, NULL, NULL, 3, &error, &index, &set), GLOBSET_EGLOB,
        CHECK(set == NULL && error.kind == 0 && blocks == before));
    CHECK(index == 2 && error.kind == GLOBSET_UNCLOSED_ALTERNATES);
    TRY(globset_set_new(globs, NULL, NULL, GLOBS, NULL, NULL, &set), GLOBSET_OK,
        CHECK(set == NULL && blocks == before));
    CHECK(globset_set_length(set) == GLOBS);
    TRY(globset_set_is_match(set, TEXT("src/a/b.c")), 1, CHECK(blocks == before));
    return set;
}

/* Once a searcher is made, only finding the globs of many paths takes memory. */
static void try_searcher(const globset_set *set) {
    const size_t ends[] = {3, 9};
    uint8_t answers[2] = {7, 7};
    globset_searcher *searcher;
    const size_t *indexes;
    size_t count;
    TRY(globset_searcher_new(set, &searcher), GLOBSET_OK, CHECK(searcher == NULL && blocks == before));
    left = 0;
    CHECK(globset_searcher_is_match(searcher, TEXT("src/a/b.c")) == 1);
    CHECK(globset_searcher_matches_all(searcher, TEXT("src/a/b.c")) == 0);
    CHECK(globset_searcher_can_match_below(searcher, TEXT("src/a")) == 1);
    CHECK(globset_searcher_find(searcher, TEXT("src/a/b.c"), &indexes, &count) == GLOBSET_OK);
    CHECK(count == 2 && indexes[0] == 2 && indexes[1] == 3);
    CHECK(globset_searcher_is_match_many(searcher, TEXT("src/a/b.c"), ends, 2, answers) == GLOBSET_OK);
    CHECK(answers[0] == 0 && answers[1] == 1);
    left = -1;
    const size_t both[] = {9, 9};
    size_t index_ends[2] = {7, 7}, found[2] = {7, 7};
    TRY(globset_searcher_find_many(searcher, TEXT("src/a/b.c"), both, 2, index_ends, found, 2, &count), GLOBSET_OK,
        CHECK(blocks == before && count == 0 && index_ends[0] == 7 && index_ends[1] == 7 && found[0] == 7));
    CHECK(count == 2 && index_ends[0] == 2 && index_ends[1] == 2 && found[0] == 2 && found[1] == 3);
    globset_searcher_free(searcher);
}

/* The globs are as they were. Answers are read without memory. */
static void try_relations(void) {
    globset_glob *made[GLOBS];
    const globset_glob *those[GLOBS];
    globset_answers *answers;
    const char *path;
    const size_t *indexes;
    size_t length, count;
    for (int i = 0; i < GLOBS; i++) CHECK(globset_glob_new(TEXT(globs[i]), 0, NULL, &made[i]) == GLOBSET_OK);
    for (int i = 0; i < GLOBS; i++) those[i] = made[i];
    TRY(globset_covering(made[0], those, GLOBS, GLOBSET_RELATIVE_PATHS, 1000, &answers), GLOBSET_OK,
        CHECK(answers == NULL && blocks == before));
    left = 0;
    CHECK(globset_answers_has_path(answers, 0, &path, &length) == 0);
    left = -1;
    globset_answers_free(answers);
    TRY(globset_overlap(made[0], made[5], GLOBSET_RELATIVE_PATHS, 1000, &answers), GLOBSET_OK,
        CHECK(answers == NULL && blocks == before));
    left = 0;
    CHECK(globset_answers_has_path(answers, 0, &path, &length) == 1 && length == 1 && path[0] == 'a');
    left = -1;
    globset_answers_free(answers);
    TRY(globset_unreachable(those, GLOBS, GLOBSET_LAST_DECIDES, GLOBSET_ALL_PATHS, 1000, &answers), GLOBSET_OK,
        CHECK(answers == NULL && blocks == before));
    left = 0;
    CHECK(globset_answers_has_path(answers, 0, &path, &length) == 0 && path == NULL);
    CHECK(globset_answers_indexes(answers, 0, &indexes, &count) == GLOBSET_OK && count == 1 && indexes[0] == 5);
    left = -1;
    globset_answers_free(answers);
    for (int i = 0; i < GLOBS; i++) globset_glob_free(made[i]);
}

/* After a failure the walk decides as before. Lines are read without memory, and a walk goes up without memory. */
static void try_ignore(void) {
    static const char file[] = "*a*b*\n[c\n!/src/ab\nout/\n";
    const size_t ends[] = {2, 6};
    uint8_t answers[2] = {7, 7};
    globset_told_rule rules[2] = {{7, 7, 7}, {7, 7, 7}};
    globset_ignore *ignore;
    globset_rule rule = {7, 7};
    const size_t *lines;
    size_t count;
    TRY(globset_ignore_new(GLOBSET_IGNORE_CASE, &ignore), GLOBSET_OK, CHECK(ignore == NULL && blocks == before));
    TRY(globset_ignore_add_file(ignore, TEXT(file)), GLOBSET_OK,
        CHECK(globset_ignore_is_ignored(ignore, "ab", 2, 0, 0, NULL) == 0));
    TRY(globset_ignore_enter(ignore, TEXT("src")), GLOBSET_OK,
        CHECK(globset_ignore_is_ignored(ignore, "src/ab", 6, 0, 0, &rule) == 0 && rule.line == 3));
    TRY(globset_ignore_add_file(ignore, TEXT("xy\n")), GLOBSET_OK,
        CHECK(globset_ignore_is_ignored(ignore, "xy", 2, 0, 0, NULL) == 0));
    TRY(globset_ignore_is_ignored(ignore, TEXT("d/ab"), 0, GLOBSET_BY_GIT, &rule), 1,
        CHECK(rule.file == 0 && rule.line == 0));
    CHECK(rule.file == 0 && rule.line == 1);
    TRY(globset_ignore_decide_many(ignore, TEXT("about/"), ends, 2, GLOBSET_BY_GIT, answers), GLOBSET_OK,
        CHECK(answers[0] == 7 && answers[1] == 7));
    CHECK(answers[0] == GLOBSET_KEPT && answers[1] == GLOBSET_IGNORED);
    TRY(globset_ignore_rules_many(ignore, TEXT("about/"), ends, 2, GLOBSET_BY_GIT, rules), GLOBSET_OK,
        CHECK(rules[0].line == 7 && rules[1].line == 7));
    CHECK(rules[0].line == 3 && rules[1].line == 4);
    left = 0;
    CHECK(globset_ignore_unread_lines(ignore, 0, &lines, &count) == GLOBSET_OK && count == 1 && lines[0] == 2);
    CHECK(globset_ignore_leave(ignore) == GLOBSET_OK);
    CHECK(globset_ignore_unread_lines(ignore, 1, &lines, &count) == GLOBSET_EINDEX);
    left = -1;
    CHECK(globset_ignore_is_ignored(ignore, "src/ab", 6, 0, 0, &rule) == 0 && rule.line == 3);
    globset_ignore_free(ignore);
}

/* After a failure there are no answers, and the walk has its file. Texts of lines and answers are read without memory. */
static void try_rules(void) {
    globset_ignore *ignore;
    globset_answers *answers;
    const char *text;
    size_t length, line, lines[2], count;
    uint32_t found;
    CHECK(globset_ignore_new(0, &ignore) == GLOBSET_OK);
    CHECK(globset_ignore_add_file(ignore, TEXT("[ab] \n/src\n!/src/c\n\na\nb")) == GLOBSET_OK);
    left = 0;
    CHECK(globset_ignore_line_text(ignore, 0, 1, &text, &length) == GLOBSET_OK);
    CHECK(length == 4 && memcmp(text, "[ab]", 4) == 0);
    CHECK(globset_ignore_line_text(ignore, 0, 7, &text, &length) == GLOBSET_EINDEX && text == NULL);
    left = -1;
    TRY(globset_ignore_unreachable(ignore, 0, GLOBSET_RELATIVE_PATHS, 1000, &answers), GLOBSET_OK,
        CHECK(answers == NULL && blocks == before && globset_ignore_is_ignored(ignore, "b", 1, 0, 0, NULL) == 1));
    left = 0;
    CHECK(globset_answers_rule(answers, 0, &line, &found) == GLOBSET_OK && line == 1 && found == GLOBSET_COVERED);
    CHECK(globset_answers_lines(answers, 0, lines, 2, &count) == GLOBSET_OK && count == 2 && lines[0] + lines[1] == 11);
    CHECK(globset_answers_rule(answers, 2, &line, &found) == GLOBSET_OK && line == 3 && found == GLOBSET_IN_IGNORED);
    CHECK(globset_answers_lines(answers, 2, lines, 2, &count) == GLOBSET_OK && count == 1 && lines[0] == 2);
    CHECK(globset_answers_has_path(answers, 3, &text, &length) == 1 && length == 1 && text[0] == 'a');
    left = -1;
    globset_answers_free(answers);
    globset_ignore_free(ignore);
}

/* How many bytes were asked for while a set was made that keeps at most so many bytes of rows. */
static size_t bytes_of_set(size_t limit) {
    globset_builder *builder;
    globset_set *set;
    globset_glob *glob;
    CHECK(globset_glob_new(TEXT("src/**/*a*b?[bc]*"), 0, NULL, &glob) == GLOBSET_OK);
    CHECK(globset_builder_new(&builder) == GLOBSET_OK && globset_builder_add(builder, glob) == GLOBSET_OK);
    CHECK(globset_builder_set_dfa_size_limit(builder, limit) == GLOBSET_OK);
    size_t before = asked;
    CHECK(globset_builder_build(builder, &set) == GLOBSET_OK);
    size_t bytes = asked - before;
    globset_glob_free(glob);
    globset_builder_free(builder);
    globset_set_free(set);
    return bytes;
}

int main(void) {
    CHECK(bytes_of_set(0) < bytes_of_set(1 << 20));
    try_texts();
    try_builder();
    try_matcher();
    globset_set *set = try_set();
    try_searcher(set);
    globset_set_free(set);
    try_relations();
    try_ignore();
    try_rules();
    CHECK(blocks == 0);
    CHECK(failures > 0);
    printf("memory: passed, %ld failures of allocations\n", failures);
    return 0;
}
