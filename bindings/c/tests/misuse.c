/* Null in each place of each function of globset.h, and objects of a wrong kind, as a cast makes them. Each ends in an
 * error or does nothing, and leaves no object behind. */
#include "objects.h"

static void frees(void) {
    globset_glob_free(NULL);
    globset_matcher_free(NULL);
    globset_builder_free(NULL);
    globset_set_free(NULL);
    globset_searcher_free(NULL);
    globset_answers_free(NULL);
    globset_ignore_free(NULL);
}

/* A cleanup that frees all that a function made, whether it was made or not. */
static void cleanup(void) {
    globset_set *set = NULL;
    globset_searcher *searcher = NULL;
    const char *text = "[";
    if (globset_set_new(&text, NULL, NULL, 1, NULL, NULL, &set) != GLOBSET_OK) goto end;
    if (globset_searcher_new(set, &searcher) != GLOBSET_OK) goto end;
    CHECK(0);
end:
    CHECK(set == NULL && searcher == NULL);
    globset_searcher_free(searcher);
    globset_set_free(set);
}

static void texts(void) {
    globset_error error = {1, 2, 3, 4};
    globset_glob *glob = (globset_glob *)&error;
    char buffer[4] = "###";
    size_t length = 5;
    CHECK(globset_glob_new(NULL, 1, 0, &error, &glob) == GLOBSET_ENULL && glob == NULL && error.kind == 0);
    CHECK(globset_glob_new(NULL, GLOBSET_ZERO_TERMINATED, 0, &error, &glob) == GLOBSET_ENULL);
    CHECK(globset_glob_new("a", 1, 0, &error, NULL) == GLOBSET_ENULL);
    CHECK(globset_glob_new("[", 1, 0, NULL, &glob) == GLOBSET_EGLOB && glob == NULL);
    error.kind = GLOBSET_UNCLOSED_CLASS;
    CHECK(globset_error_text(&error, NULL, 1, buffer, 4, &length) == GLOBSET_ENULL && length == 0);
    length = 5;
    CHECK(globset_error_text(&error, "[", 1, NULL, 4, &length) == GLOBSET_ENULL && length == 0);
    length = 5;
    CHECK(globset_error_text(NULL, "[", 1, buffer, 4, &length) == GLOBSET_ENULL && length == 0);
    CHECK(globset_error_text(&error, "[", 1, NULL, 0, NULL) == GLOBSET_EBUFFER);
    CHECK(globset_escape(NULL, 1, buffer, 4, &length) == GLOBSET_ENULL);
    CHECK(globset_escape("a", 1, NULL, 4, &length) == GLOBSET_ENULL);
    CHECK(globset_escape("a", 1, buffer, 4, NULL) == GLOBSET_OK && strcmp(buffer, "a") == 0);
    CHECK(globset_glob_regex(NULL, buffer, 4, &length) == GLOBSET_ENULL && length == 0);
    length = 5;
    CHECK(globset_glob_text(NULL, buffer, 4, &length) == GLOBSET_ENULL && length == 0);
    CHECK(globset_glob_options(NULL) == 0);
    glob = glob_of("a", 0);
    CHECK(globset_glob_text(glob, NULL, 4, &length) == GLOBSET_ENULL);
    CHECK(globset_glob_regex(glob, NULL, 4, &length) == GLOBSET_ENULL);
    CHECK(globset_glob_regex(glob, NULL, 0, NULL) == GLOBSET_EBUFFER);
    globset_glob_free(glob);
}

static void makers(void) {
    static const char *const globs[] = {"a", NULL};
    static const size_t lengths[] = {1, 0}, wrong[] = {1, 1};
    globset_builder *builder;
    globset_glob *glob = glob_of("a", 0);
    globset_set *set = (globset_set *)glob;
    globset_matcher *matcher = (globset_matcher *)glob;
    globset_searcher *searcher = (globset_searcher *)glob;
    globset_error error = {1, 2, 3, 4};
    size_t index = 9;
    CHECK(globset_builder_new(NULL) == GLOBSET_ENULL && globset_builder_new(&builder) == GLOBSET_OK);
    CHECK(globset_builder_add(NULL, glob) == GLOBSET_ENULL && globset_builder_add(builder, NULL) == GLOBSET_ENULL);
    CHECK(globset_builder_build(builder, NULL) == GLOBSET_ENULL);
    CHECK(globset_builder_set_dfa_size_limit(NULL, 1) == GLOBSET_ENULL);
    CHECK(globset_builder_build(NULL, &set) == GLOBSET_ENULL && set == NULL);
    CHECK(globset_matcher_new(NULL, &matcher) == GLOBSET_ENULL && matcher == NULL);
    CHECK(globset_matcher_new(glob, NULL) == GLOBSET_ENULL);
    CHECK(globset_searcher_new(NULL, &searcher) == GLOBSET_ENULL && searcher == NULL);
    CHECK(globset_set_new(NULL, NULL, NULL, 1, &error, &index, &set) == GLOBSET_ENULL && set == NULL);
    CHECK(error.kind == 0 && error.start == 0 && error.end == 0 && error.offset == 0 && index == 0);
    CHECK(globset_set_new(globs, NULL, NULL, 1, NULL, NULL, NULL) == GLOBSET_ENULL);
    CHECK(globset_set_new(globs, NULL, NULL, 2, NULL, &index, &set) == GLOBSET_ENULL && index == 1 && set == NULL);
    CHECK(globset_set_new(globs, wrong, NULL, 2, NULL, &index, &set) == GLOBSET_ENULL && index == 1 && set == NULL);
    CHECK(globset_set_new(globs, lengths, NULL, 2, NULL, NULL, &set) == GLOBSET_OK && globset_set_length(set) == 2);
    CHECK(globset_searcher_new(set, NULL) == GLOBSET_ENULL);
    globset_set_free(set);
    globset_glob_free(glob);
    globset_builder_free(builder);
}

static void questions(void) {
    static const char *const globs[] = {"a"};
    static const size_t end = 1;
    globset_glob *glob = glob_of("a", 0);
    globset_set *set = set_of(globs, 1);
    globset_searcher *searcher = searcher_of(globs, 1);
    globset_matcher *matcher;
    const size_t *indexes = &end;
    size_t count = 7;
    uint8_t answer = 7;
    CHECK(globset_matcher_new(glob, &matcher) == GLOBSET_OK);
    CHECK(globset_set_length(NULL) == 0);
    CHECK(globset_set_is_match(NULL, "a", 1) == GLOBSET_ENULL && globset_set_is_match(set, NULL, 1) == GLOBSET_ENULL);
    CHECK(globset_set_is_match(set, NULL, GLOBSET_ZERO_TERMINATED) == GLOBSET_ENULL);
    CHECK(globset_matcher_is_match(NULL, "a", 1) == GLOBSET_ENULL);
    CHECK(globset_matcher_is_match(matcher, NULL, 1) == GLOBSET_ENULL);
    CHECK(globset_searcher_is_match(NULL, "a", 1) == GLOBSET_ENULL);
    CHECK(globset_searcher_is_match(searcher, NULL, 1) == GLOBSET_ENULL);
    CHECK(globset_searcher_matches_all(NULL, "a", 1) == GLOBSET_ENULL);
    CHECK(globset_searcher_matches_all(searcher, NULL, 1) == GLOBSET_ENULL);
    CHECK(globset_searcher_can_match_below(NULL, "a", 1) == GLOBSET_ENULL);
    CHECK(globset_searcher_can_match_below(searcher, NULL, 1) == GLOBSET_ENULL);
    CHECK(globset_searcher_find(NULL, "a", 1, &indexes, &count) == GLOBSET_ENULL && indexes == NULL && count == 0);
    CHECK(globset_searcher_find(searcher, NULL, 1, &indexes, &count) == GLOBSET_ENULL);
    CHECK(globset_searcher_find(searcher, "a", 1, NULL, &count) == GLOBSET_ENULL);
    CHECK(globset_searcher_find(searcher, "a", 1, &indexes, NULL) == GLOBSET_ENULL);
    CHECK(globset_searcher_is_match_many(NULL, "a", 1, &end, 1, &answer) == GLOBSET_ENULL);
    CHECK(globset_searcher_is_match_many(searcher, NULL, 1, &end, 1, &answer) == GLOBSET_ENULL);
    CHECK(globset_searcher_is_match_many(searcher, "a", 1, NULL, 1, &answer) == GLOBSET_ENULL && answer == 7);
    CHECK(globset_searcher_is_match_many(searcher, "a", 1, &end, 1, NULL) == GLOBSET_ENULL);
    globset_matcher_free(matcher);
    globset_searcher_free(searcher);
    globset_set_free(set);
    globset_glob_free(glob);
}

static void many(void) {
    static const char *const globs[] = {"a"};
    static const size_t end = 1;
    globset_searcher *searcher = searcher_of(globs, 1);
    size_t index_end = 7, index = 7, count = 7;
    CHECK(globset_searcher_find_many(NULL, "a", 1, &end, 1, &index_end, &index, 1, &count) == GLOBSET_ENULL);
    CHECK(count == 0);
    CHECK(globset_searcher_find_many(searcher, NULL, 1, &end, 1, &index_end, &index, 1, &count) == GLOBSET_ENULL);
    CHECK(globset_searcher_find_many(searcher, "a", 1, NULL, 1, &index_end, &index, 1, &count) == GLOBSET_ENULL);
    CHECK(globset_searcher_find_many(searcher, "a", 1, &end, 1, NULL, &index, 1, &count) == GLOBSET_ENULL);
    CHECK(globset_searcher_find_many(searcher, "a", 1, &end, 1, &index_end, NULL, 1, &count) == GLOBSET_ENULL);
    CHECK(globset_searcher_find_many(searcher, "a", 1, &end, 1, &index_end, &index, 1, NULL) == GLOBSET_ENULL);
    CHECK(index_end == 7 && index == 7);
    globset_searcher_free(searcher);
}

static void relations(void) {
    globset_glob *glob = glob_of("a", 0);
    const globset_glob *const globs[2] = {glob, NULL};
    globset_answers *answers = (globset_answers *)glob;
    const char *path = "x";
    const size_t *indexes = (const size_t *)&path;
    size_t count = 7;
    CHECK(globset_covering(NULL, globs, 1, 0, 9, &answers) == GLOBSET_ENULL && answers == NULL);
    CHECK(globset_covering(glob, NULL, 1, 0, 9, &answers) == GLOBSET_ENULL && answers == NULL);
    CHECK(globset_covering(glob, globs, 2, 0, 9, &answers) == GLOBSET_ENULL && answers == NULL);
    CHECK(globset_covering(glob, globs, 1, 0, 9, NULL) == GLOBSET_ENULL);
    CHECK(globset_overlap(NULL, glob, 0, 9, &answers) == GLOBSET_ENULL && answers == NULL);
    CHECK(globset_overlap(glob, NULL, 0, 9, &answers) == GLOBSET_ENULL && answers == NULL);
    CHECK(globset_overlap(glob, glob, 0, 9, NULL) == GLOBSET_ENULL);
    CHECK(globset_unreachable(NULL, 1, 0, 0, 9, &answers) == GLOBSET_ENULL && answers == NULL);
    CHECK(globset_unreachable(globs, 2, 0, 0, 9, &answers) == GLOBSET_ENULL && answers == NULL);
    CHECK(globset_unreachable(globs, 1, 0, 0, 9, NULL) == GLOBSET_ENULL);
    CHECK(globset_answers_has_path(NULL, 0, &path, &count) == GLOBSET_ENULL && path == NULL && count == 0);
    CHECK(globset_answers_indexes(NULL, 0, &indexes, &count) == GLOBSET_ENULL && indexes == NULL);
    CHECK(globset_overlap(glob, glob, 0, 9, &answers) == GLOBSET_OK);
    CHECK(globset_answers_indexes(answers, 0, NULL, &count) == GLOBSET_ENULL);
    CHECK(globset_answers_indexes(answers, 0, &indexes, NULL) == GLOBSET_ENULL);
    globset_answers_free(answers);
    globset_glob_free(glob);
}

static void rules(void) {
    globset_ignore *ignore;
    globset_answers *answers = (globset_answers *)&ignore;
    const char *text = "x";
    size_t count = 7, line = 7;
    uint32_t found = 7;
    CHECK(globset_ignore_new(0, &ignore) == GLOBSET_OK && globset_ignore_add_file(ignore, "a", 1) == GLOBSET_OK);
    CHECK(globset_ignore_line_text(NULL, 0, 1, &text, &count) == GLOBSET_ENULL && text == NULL && count == 0);
    count = 7;
    CHECK(globset_ignore_line_text(ignore, 0, 1, NULL, &count) == GLOBSET_ENULL && count == 0);
    CHECK(globset_ignore_unreachable(NULL, 0, 0, 9, &answers) == GLOBSET_ENULL && answers == NULL);
    CHECK(globset_ignore_unreachable(ignore, 0, 0, 9, NULL) == GLOBSET_ENULL);
    CHECK(globset_answers_rule(NULL, 0, &line, &found) == GLOBSET_ENULL && line == 0 && found == 0);
    count = 7;
    CHECK(globset_answers_lines(NULL, 0, &line, 1, &count) == GLOBSET_ENULL && count == 0);
    CHECK(globset_ignore_unreachable(ignore, 0, 0, 9, &answers) == GLOBSET_OK);
    line = found = 7;
    CHECK(globset_answers_rule(answers, 0, NULL, &found) == GLOBSET_ENULL && found == 0);
    CHECK(globset_answers_rule(answers, 0, &line, NULL) == GLOBSET_ENULL && line == 0);
    CHECK(globset_answers_lines(answers, 0, NULL, 1, &count) == GLOBSET_ENULL);
    CHECK(globset_answers_lines(answers, 0, &line, 1, NULL) == GLOBSET_ENULL);
    CHECK(globset_answers_lines(answers, 0, &line, (size_t)-1, &count) == GLOBSET_ELENGTH && count == 0);
    globset_answers_free(answers);
    globset_ignore_free(ignore);
}

static void ignores(void) {
    static const size_t end = 1;
    globset_glob *glob = glob_of("a", 0);
    globset_ignore *ignore = (globset_ignore *)glob;
    globset_rule rule = {7, 7};
    globset_told_rule told = {7, 7, 7};
    const size_t *lines = &end;
    size_t count = 7;
    uint8_t answer = 7;
    CHECK(globset_ignore_new(0, NULL) == GLOBSET_ENULL);
    CHECK(globset_ignore_new(2, &ignore) == GLOBSET_EOPTIONS && ignore == NULL);
    CHECK(globset_ignore_new(0, &ignore) == GLOBSET_OK);
    CHECK(globset_ignore_set_dfa_size_limit(NULL, 1) == GLOBSET_ENULL);
    CHECK(globset_ignore_add_file(NULL, "a", 1) == GLOBSET_ENULL);
    CHECK(globset_ignore_add_file(ignore, NULL, 1) == GLOBSET_ENULL);
    CHECK(globset_ignore_enter(NULL, "a", 1) == GLOBSET_ENULL &&
          globset_ignore_enter(ignore, NULL, 1) == GLOBSET_ENULL);
    CHECK(globset_ignore_leave(NULL) == GLOBSET_ENULL);
    CHECK(globset_ignore_is_ignored(NULL, "a", 1, 0, 0, &rule) == GLOBSET_ENULL && rule.file == 0 && rule.line == 0);
    CHECK(globset_ignore_is_ignored(ignore, NULL, 1, 0, 0, &rule) == GLOBSET_ENULL);
    CHECK(globset_ignore_is_ignored(ignore, NULL, GLOBSET_ZERO_TERMINATED, 0, 0, NULL) == GLOBSET_ENULL);
    CHECK(globset_ignore_decide_many(NULL, "a", 1, &end, 1, 0, &answer) == GLOBSET_ENULL);
    CHECK(globset_ignore_decide_many(ignore, NULL, 1, &end, 1, 0, &answer) == GLOBSET_ENULL);
    CHECK(globset_ignore_decide_many(ignore, "a", 1, NULL, 1, 0, &answer) == GLOBSET_ENULL && answer == 7);
    CHECK(globset_ignore_decide_many(ignore, "a", 1, &end, 1, 0, NULL) == GLOBSET_ENULL);
    CHECK(globset_ignore_rules_many(NULL, "a", 1, &end, 1, 0, &told) == GLOBSET_ENULL);
    CHECK(globset_ignore_rules_many(ignore, NULL, 1, &end, 1, 0, &told) == GLOBSET_ENULL);
    CHECK(globset_ignore_rules_many(ignore, "a", 1, NULL, 1, 0, &told) == GLOBSET_ENULL && told.line == 7);
    CHECK(globset_ignore_rules_many(ignore, "a", 1, &end, 1, 0, NULL) == GLOBSET_ENULL);
    CHECK(globset_ignore_unread_lines(NULL, 0, &lines, &count) == GLOBSET_ENULL && lines == NULL && count == 0);
    CHECK(globset_ignore_unread_lines(ignore, 0, NULL, &count) == GLOBSET_ENULL);
    CHECK(globset_ignore_unread_lines(ignore, 0, &lines, NULL) == GLOBSET_ENULL);
    globset_ignore_free(ignore);
    globset_glob_free(glob);
}

/* An object that is no searcher, in the place of one. */
static void no_searcher(void *object) {
    static const size_t end = 1;
    globset_searcher *searcher = (globset_searcher *)object;
    const size_t *indexes = &end;
    size_t count = 7;
    uint8_t answer = 7;
    CHECK(globset_searcher_is_match(searcher, "a", 1) == GLOBSET_EKIND);
    CHECK(globset_searcher_matches_all(searcher, "a", 1) == GLOBSET_EKIND);
    CHECK(globset_searcher_can_match_below(searcher, "a", 1) == GLOBSET_EKIND);
    CHECK(globset_searcher_find(searcher, "a", 1, &indexes, &count) == GLOBSET_EKIND && indexes == NULL && count == 0);
    CHECK(globset_searcher_is_match_many(searcher, "a", 1, &end, 1, &answer) == GLOBSET_EKIND && answer == 7);
    size_t index_end = 7, index = 7;
    CHECK(globset_searcher_find_many(searcher, "a", 1, &end, 1, &index_end, &index, 1, &count) == GLOBSET_EKIND);
    CHECK(index_end == 7 && index == 7 && count == 0);
}

static void no_set(const void *object) {
    const globset_set *set = (const globset_set *)object;
    globset_searcher *searcher;
    CHECK(globset_set_length(set) == 0);
    CHECK(globset_set_is_match(set, "a", 1) == GLOBSET_EKIND);
    CHECK(globset_searcher_new(set, &searcher) == GLOBSET_EKIND && searcher == NULL);
}

static void no_answers(void *object) {
    globset_answers *answers = (globset_answers *)object;
    const char *path = "x";
    const size_t *indexes = (const size_t *)&path;
    size_t count = 7;
    CHECK(globset_answers_has_path(answers, 0, &path, &count) == GLOBSET_EKIND && path == NULL && count == 0);
    CHECK(globset_answers_indexes(answers, 0, &indexes, &count) == GLOBSET_EKIND && indexes == NULL && count == 0);
    size_t line = 7, lines = 7;
    uint32_t found = 7;
    count = 7;
    CHECK(globset_answers_rule(answers, 0, &line, &found) == GLOBSET_EKIND && line == 0 && found == 0);
    CHECK(globset_answers_lines(answers, 0, &lines, 1, &count) == GLOBSET_EKIND && lines == 7 && count == 0);
}

static void no_ignore(void *object) {
    static const size_t end = 1;
    globset_ignore *ignore = (globset_ignore *)object;
    globset_rule rule = {7, 7};
    globset_told_rule told = {7, 7, 7};
    const size_t *lines = &end;
    size_t count = 7;
    uint8_t answer = 7;
    CHECK(globset_ignore_add_file(ignore, "a", 1) == GLOBSET_EKIND &&
          globset_ignore_enter(ignore, "a", 1) == GLOBSET_EKIND);
    CHECK(globset_ignore_leave(ignore) == GLOBSET_EKIND);
    CHECK(globset_ignore_set_dfa_size_limit(ignore, 1) == GLOBSET_EKIND);
    CHECK(globset_ignore_is_ignored(ignore, "a", 1, 0, 0, &rule) == GLOBSET_EKIND && rule.file == 0 && rule.line == 0);
    CHECK(globset_ignore_decide_many(ignore, "a", 1, &end, 1, 0, &answer) == GLOBSET_EKIND && answer == 7);
    CHECK(globset_ignore_rules_many(ignore, "a", 1, &end, 1, 0, &told) == GLOBSET_EKIND && told.line == 7);
    CHECK(globset_ignore_unread_lines(ignore, 0, &lines, &count) == GLOBSET_EKIND && lines == NULL && count == 0);
    globset_answers *answers = (globset_answers *)object;
    const char *text = "x";
    count = 7;
    CHECK(globset_ignore_line_text(ignore, 0, 1, &text, &count) == GLOBSET_EKIND && text == NULL && count == 0);
    CHECK(globset_ignore_unreachable(ignore, 0, 0, 9, &answers) == GLOBSET_EKIND && answers == NULL);
}

static void no_glob(const void *object, globset_builder *builder) {
    const globset_glob *glob = (const globset_glob *)object;
    globset_matcher *matcher;
    globset_answers *answers;
    CHECK(globset_covering(glob, NULL, 0, 0, 9, &answers) == GLOBSET_EKIND && answers == NULL);
    CHECK(globset_overlap(glob, glob, 0, 9, &answers) == GLOBSET_EKIND && answers == NULL);
    CHECK(globset_unreachable(&glob, 1, 0, 0, 9, &answers) == GLOBSET_EKIND && answers == NULL);
    size_t length = 7;
    CHECK(globset_glob_regex(glob, NULL, 0, &length) == GLOBSET_EKIND && length == 0);
    CHECK(globset_glob_text(glob, NULL, 0, &length) == GLOBSET_EKIND && globset_glob_options(glob) == 0);
    CHECK(globset_matcher_new(glob, &matcher) == GLOBSET_EKIND && matcher == NULL);
    if (object != builder) CHECK(globset_builder_add(builder, glob) == GLOBSET_EKIND);
}

static void no_builder(void *object, const globset_glob *glob) {
    globset_builder *builder = (globset_builder *)object;
    globset_set *set;
    if (object != glob) CHECK(globset_builder_add(builder, glob) == GLOBSET_EKIND);
    CHECK(globset_builder_set_dfa_size_limit(builder, 1) == GLOBSET_EKIND);
    CHECK(globset_builder_build(builder, &set) == GLOBSET_EKIND && set == NULL);
}

/* Passes an object to the `_free` of each other kind. The objects are a glob, a set, a searcher, a builder, a matcher,
 * answers and a walk. */
static void free_as_another(void *const *objects, int kind) {
    if (kind != 0) globset_glob_free((globset_glob *)objects[kind]);
    if (kind != 1) globset_set_free((globset_set *)objects[kind]);
    if (kind != 2) globset_searcher_free((globset_searcher *)objects[kind]);
    if (kind != 3) globset_builder_free((globset_builder *)objects[kind]);
    if (kind != 4) globset_matcher_free((globset_matcher *)objects[kind]);
    if (kind != 5) globset_answers_free((globset_answers *)objects[kind]);
    if (kind != 6) globset_ignore_free((globset_ignore *)objects[kind]);
}

static void wrong_kinds(void) {
    static const char *const globs[] = {"a"};
    globset_glob *glob = glob_of("a", 0);
    globset_set *set = set_of(globs, 1);
    globset_searcher *searcher = searcher_of(globs, 1);
    globset_builder *builder;
    globset_matcher *matcher;
    globset_answers *answers;
    globset_ignore *ignore;
    CHECK(globset_builder_new(&builder) == GLOBSET_OK && globset_matcher_new(glob, &matcher) == GLOBSET_OK);
    CHECK(globset_overlap(glob, glob, 0, 9, &answers) == GLOBSET_OK);
    CHECK(globset_ignore_new(0, &ignore) == GLOBSET_OK && globset_ignore_add_file(ignore, "a", 1) == GLOBSET_OK);
    void *const objects[7] = {glob, set, searcher, builder, matcher, answers, ignore};
    for (int i = 0; i < 7; i++) {
        if (objects[i] != glob) no_glob(objects[i], builder);
        if (objects[i] != set) no_set(objects[i]);
        if (objects[i] != searcher) no_searcher(objects[i]);
        if (objects[i] != builder) no_builder(objects[i], glob);
        if (objects[i] != answers) no_answers(objects[i]);
        if (objects[i] != ignore) no_ignore(objects[i]);
        CHECK(globset_matcher_is_match((globset_matcher *)objects[i], "a", 1) == (i == 4 ? 1 : GLOBSET_EKIND));
    }
    CHECK(globset_searcher_is_match(searcher, "a", 1) == 1 && globset_set_is_match(set, "a", 1) == 1);
    for (int i = 0; i < 7; i++) free_as_another(objects, i);
    CHECK(globset_searcher_is_match(searcher, "a", 1) == 1 && globset_set_is_match(set, "a", 1) == 1);
    CHECK(globset_matcher_is_match(matcher, "a", 1) == 1 && globset_glob_options(glob) == 0);
    CHECK(globset_builder_add(builder, glob) == GLOBSET_OK);
    CHECK(globset_answers_has_path(answers, 0, NULL, NULL) == 1);
    CHECK(globset_ignore_is_ignored(ignore, "a", 1, 0, 0, NULL) == 1);
    globset_glob_free(glob);
    globset_set_free(set);
    globset_searcher_free(searcher);
    globset_builder_free(builder);
    globset_matcher_free(matcher);
    globset_answers_free(answers);
    globset_ignore_free(ignore);
}

/* Lengths and counts that no array has: -1, as of a read that failed, and others. They are errors, and nothing is read. */
static void impossible_lengths(void) {
    static const size_t impossible[] = {(size_t)-1, (size_t)-2, GLOBSET_ZERO_TERMINATED + 1};
    static const char *const globs[] = {"a"};
    globset_set *set = set_of(globs, 1);
    globset_searcher *searcher = searcher_of(globs, 1);
    globset_glob *glob = glob_of("a", 0);
    globset_matcher *matcher;
    globset_error error = {GLOBSET_UNCLOSED_CLASS, 0, 0, 0};
    CHECK(globset_matcher_new(glob, &matcher) == GLOBSET_OK);
    for (int i = 0; i < 3; i++) {
        size_t wrong = impossible[i], count = 7, index = 7, length = 7;
        const size_t *indexes = &count;
        const size_t end = 1;
        uint8_t answer = 7;
        char buffer[4] = "###";
        globset_glob *none;
        globset_set *no_set;
        const globset_glob *const those[1] = {glob};
        globset_answers *answers;
        CHECK(globset_covering(glob, those, wrong, 0, 9, &answers) == GLOBSET_ELENGTH && answers == NULL);
        CHECK(globset_unreachable(those, wrong, 0, 0, 9, &answers) == GLOBSET_ELENGTH && answers == NULL);
        CHECK(globset_set_is_match(set, "a", wrong) == GLOBSET_ELENGTH);
        CHECK(globset_matcher_is_match(matcher, "a", wrong) == GLOBSET_ELENGTH);
        CHECK(globset_searcher_is_match(searcher, "a", wrong) == GLOBSET_ELENGTH);
        CHECK(globset_searcher_matches_all(searcher, "a", wrong) == GLOBSET_ELENGTH);
        CHECK(globset_searcher_can_match_below(searcher, "a", wrong) == GLOBSET_ELENGTH);
        CHECK(globset_searcher_find(searcher, "a", wrong, &indexes, &count) == GLOBSET_ELENGTH && indexes == NULL);
        CHECK(globset_searcher_is_match_many(searcher, "a", wrong, &end, 1, &answer) == GLOBSET_ELENGTH);
        CHECK(globset_searcher_is_match_many(searcher, "a", 1, &end, wrong, &answer) == GLOBSET_ELENGTH && answer == 7);
        CHECK(globset_searcher_find_many(searcher, "a", wrong, &end, 1, &index, &index, 1, &count) == GLOBSET_ELENGTH);
        CHECK(globset_searcher_find_many(searcher, "a", 1, &end, wrong, &index, &index, 1, &count) == GLOBSET_ELENGTH);
        CHECK(globset_searcher_find_many(searcher, "a", 1, &end, 1, &index, &index, wrong, &count) == GLOBSET_ELENGTH);
        CHECK(index == 7 && count == 0);
        CHECK(globset_glob_new("a", wrong, 0, NULL, &none) == GLOBSET_ELENGTH && none == NULL);
        CHECK(globset_set_new(globs, &wrong, NULL, 1, NULL, NULL, &no_set) == GLOBSET_ELENGTH && no_set == NULL);
        CHECK(globset_set_new(globs, NULL, NULL, wrong, NULL, NULL, &no_set) == GLOBSET_ELENGTH && no_set == NULL);
        CHECK(globset_escape("a", wrong, buffer, 4, &length) == GLOBSET_ELENGTH && length == 0);
        CHECK(globset_escape("a", 1, buffer, wrong, NULL) == GLOBSET_ELENGTH);
        CHECK(globset_error_text(&error, "a", wrong, buffer, 4, NULL) == GLOBSET_ELENGTH);
        CHECK(globset_glob_text(glob, buffer, wrong, NULL) == GLOBSET_ELENGTH);
        CHECK(globset_glob_regex(glob, buffer, wrong, NULL) == GLOBSET_ELENGTH && strcmp(buffer, "###") == 0);
    }
    globset_matcher_free(matcher);
    globset_glob_free(glob);
    globset_searcher_free(searcher);
    globset_set_free(set);
}

/* The same at the calls on ignores. */
static void impossible_lengths_of_ignores(void) {
    static const size_t impossible[] = {(size_t)-1, (size_t)-2, GLOBSET_ZERO_TERMINATED + 1}, end = 1;
    globset_ignore *ignore;
    globset_told_rule told = {7, 7, 7};
    CHECK(globset_ignore_new(0, &ignore) == GLOBSET_OK);
    for (int i = 0; i < 3; i++) {
        size_t wrong = impossible[i];
        globset_rule rule = {7, 7};
        uint8_t answer = 7;
        CHECK(globset_ignore_add_file(ignore, "a", wrong) == GLOBSET_ELENGTH);
        CHECK(globset_ignore_enter(ignore, "a", wrong) == GLOBSET_ELENGTH);
        CHECK(globset_ignore_is_ignored(ignore, "a", wrong, 0, 0, &rule) == GLOBSET_ELENGTH && rule.line == 0);
        CHECK(globset_ignore_decide_many(ignore, "a", wrong, &end, 1, 0, &answer) == GLOBSET_ELENGTH);
        CHECK(globset_ignore_decide_many(ignore, "a", 1, &end, wrong, 0, &answer) == GLOBSET_ELENGTH && answer == 7);
        CHECK(globset_ignore_rules_many(ignore, "a", wrong, &end, 1, 0, &told) == GLOBSET_ELENGTH);
        CHECK(globset_ignore_rules_many(ignore, "a", 1, &end, wrong, 0, &told) == GLOBSET_ELENGTH && told.line == 7);
    }
    CHECK(globset_ignore_rules_many(ignore, "a", 1, &end, GLOBSET_ZERO_TERMINATED / sizeof told, 0, &told) ==
              GLOBSET_ELENGTH &&
          told.line == 7);
    globset_ignore_free(ignore);
}

/* Each result has a text of its own, and a number that is none has one too. */
static void status_texts(void) {
    for (int status = 1; status >= GLOBSET_EINDEX; status--)
        for (int other = 1; other > status; other--)
            CHECK(strcmp(globset_status_text(status), globset_status_text(other)) != 0);
    CHECK(strcmp(globset_status_text(GLOBSET_ENOMEM), "out of memory") == 0);
    CHECK(strcmp(globset_status_text(GLOBSET_ENULL), "a pointer is null that must not be") == 0);
    CHECK(strcmp(globset_status_text(GLOBSET_ENONE), "the error is none, so it says nothing") == 0);
    CHECK(strstr(globset_status_text(GLOBSET_EOPTIONS), "no such domain or choice") != NULL);
    CHECK(strstr(globset_status_text(GLOBSET_ELENGTH), "a length, a size or a count") != NULL);
    CHECK(strcmp(globset_status_text(GLOBSET_EINDEX - 1), "no result of this library") == 0);
    CHECK(strcmp(globset_status_text(2), globset_status_text(GLOBSET_EINDEX - 1)) == 0);
    CHECK(globset_status_text(-2147483647 - 1) != NULL && globset_status_text(2147483647) != NULL);
}

int main(void) {
    frees();
    cleanup();
    texts();
    makers();
    questions();
    many();
    relations();
    ignores();
    rules();
    wrong_kinds();
    impossible_lengths();
    impossible_lengths_of_ignores();
    status_texts();
    puts("misuse: passed");
    return 0;
}
