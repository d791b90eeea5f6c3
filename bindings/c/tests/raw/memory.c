/* Memory that runs out: from the k-th allocation on, each fails, for k = 0, 1, 2, .. until none fails. Each call then
 * ends in GLOBSET_OUT_OF_MEMORY, all objects are as they were and can be used on, and all memory is given back. */
#include "raw.h"

#include "../failing.h"

static const char *const globs[] = {"a", "*.rs", "src/**/*.{c,h}", "*b*c*", "**/d.*", "[ab]*"};
enum { GLOBS = sizeof globs / sizeof *globs };

#define TRY(call, wanted, check) TRY_UNTIL(globset_status, GLOBSET_OUT_OF_MEMORY, call, wanted, check)

static void try_texts(void) {
    globset_error error = {77, 78, 79, 80};
    char room[256];
    size_t needed;
    raw_glob none = {{&error}};
    TRY(raw_glob_new(TEXT("{a,b"), 0, &error, &none), GLOBSET_REJECTED,
        CHECK(error.kind == 77 && none.object.at == &error && blocks == before));
    TRY(raw_error_text(&error, TEXT("{a,b"), room, sizeof room, &needed), GLOBSET_DONE, CHECK(blocks == before));
    TRY(raw_escape(TEXT("a*b"), room, sizeof room, &needed), GLOBSET_DONE, CHECK(blocks == before));
}

static raw_set try_making(raw_matcher *matcher) {
    raw_builder builder;
    raw_set set;
    globset_error error;
    char room[256];
    size_t needed;
    TRY(raw_builder_new(&builder), GLOBSET_DONE, CHECK(blocks == before));
    for (int i = 0; i < GLOBS; i++) {
        raw_glob glob;
        TRY(raw_glob_new(TEXT(globs[i]), 0, &error, &glob), GLOBSET_DONE, CHECK(blocks == before));
        TRY(raw_glob_regex(glob, room, sizeof room, &needed), GLOBSET_DONE, CHECK(blocks == before));
        TRY(raw_glob_text(glob, room, sizeof room, &needed), GLOBSET_DONE, CHECK(blocks == before));
        TRY(raw_builder_add(&builder, glob), GLOBSET_DONE, CHECK(blocks == before));
        if (i == 3) TRY(raw_matcher_new(glob, matcher), GLOBSET_DONE, CHECK(blocks == before));
        raw_glob_free(glob);
    }
    TRY(raw_builder_build(&builder, &set), GLOBSET_DONE, CHECK(blocks == before));
    CHECK(raw_set_len(set) == GLOBS);
    raw_builder_free(builder);
    return set;
}

/* The globs are as they were, and can be lent again. */
static void try_set_of_globs(void) {
    raw_glob made[GLOBS];
    raw_set set = {{&set}};
    for (int i = 0; i < GLOBS; i++) made[i] = glob_of(globs[i], 0);
    TRY(raw_set_of_globs(made, GLOBS, &set), GLOBSET_DONE, CHECK(blocks == before && set.object.at == &set));
    CHECK(raw_set_len(set) == GLOBS);
    for (int i = 0; i < GLOBS; i++) raw_glob_free(made[i]);
    raw_set_free(set);
}

/* Once a searcher is made, no question about a path takes memory. */
static void try_matcher_searcher(raw_matcher matcher) {
    raw_matcher_searcher searcher = {{&searcher}};
    TRY(raw_matcher_searcher_new(matcher, &searcher), GLOBSET_DONE,
        CHECK(blocks == before && searcher.object.at == &searcher));
    left = 0;
    CHECK(raw_matcher_searcher_is_match(&searcher, TEXT("abc")) == GLOBSET_YES);
    CHECK(raw_matcher_searcher_is_match(&searcher, TEXT("acb")) == GLOBSET_NO);
    left = -1;
    raw_matcher_searcher_free(searcher);
}

/* A plain call that fails gives back what it took. Others may leave rows, which the set and the matcher keep until they
 * are freed. */
static void try_plain(raw_set set, raw_matcher matcher) {
    globset_lent lent_set = raw_lend(set.object), lent_matcher = raw_lend(matcher.object);
    const uint8_t *path = raw_bytes("src/a/b.c");
    size_t room[2] = {7, 7}, needed = 7;
    TRY(globset_raw_set_is_match_plain(&lent_set, path, 9), GLOBSET_YES, CHECK(blocks == before));
    TRY(globset_raw_set_matches_all_plain(&lent_set, path, 9), GLOBSET_NO, CHECK(blocks == before));
    TRY(globset_raw_set_matches_plain(&lent_set, path, 9, room, 2, &needed), GLOBSET_DONE,
        CHECK(blocks == before && room[0] == 7 && needed == 7));
    CHECK(needed == 2 && room[0] == 2 && room[1] == 3);
    TRY(globset_raw_matcher_is_match_plain(&lent_matcher, raw_bytes("abc"), 3), GLOBSET_YES, CHECK(blocks == before));
}

/* Once a searcher is made, only finding the globs of many paths takes memory. */
static void try_searcher(raw_set set) {
    raw_searcher searcher = {{&searcher}};
    globset_indexes found;
    TRY(raw_searcher_new(set, &searcher), GLOBSET_DONE, CHECK(blocks == before && searcher.object.at == &searcher));
    left = 0;
    CHECK(raw_searcher_is_match(&searcher, TEXT("src/a/b.c")) == GLOBSET_YES);
    CHECK(raw_searcher_matches_all(&searcher, TEXT("src/a/b.c")) == GLOBSET_NO);
    CHECK(raw_searcher_can_match_below(&searcher, TEXT("src/a")) == GLOBSET_YES);
    CHECK(raw_searcher_matches(&searcher, TEXT("src/a/b.c"), &found) == GLOBSET_DONE);
    CHECK(found.count == 2 && found.at[0] == 2 && found.at[1] == 3);
    const size_t ends[] = {3, 9};
    uint8_t answers[2] = {7, 7};
    CHECK(raw_searcher_is_match_many(&searcher, TEXT("src/a/b.c"), ends, answers, 2) == GLOBSET_DONE);
    CHECK(answers[0] == 0 && answers[1] == 1);
    left = -1;
    size_t index_ends[2] = {7, 7}, room[2] = {7, 7}, needed = 7;
    TRY(raw_searcher_matches_many(&searcher, TEXT("src/a/b.c"), (const size_t[]){9, 9}, index_ends, 2, room, 2,
                                  &needed),
        GLOBSET_DONE,
        CHECK(blocks == before && index_ends[0] == 7 && index_ends[1] == 7 && room[0] == 7 && room[1] == 7 &&
              needed == 7);
        CHECK(raw_searcher_found(&searcher, &found) == GLOBSET_DONE && found.count == 0));
    CHECK(index_ends[0] == 2 && index_ends[1] == 2 && room[0] == 2 && room[1] == 3 && needed == 2);
    raw_searcher_free(searcher);
}

/* The globs are as they were, and can be lent again. Answers are read without memory. */
static void try_relations(void) {
    raw_glob made[GLOBS];
    raw_answers answers = {{&answers}};
    globset_bytes path;
    globset_indexes indexes;
    for (int i = 0; i < GLOBS; i++) made[i] = glob_of(globs[i], 0);
    TRY(raw_covering(made[0], made, GLOBS, GLOBSET_RELATIVE_PATHS, 1000, &answers), GLOBSET_DONE,
        CHECK(blocks == before && answers.object.at == &answers));
    left = 0;
    CHECK(raw_answers_at(&answers, 0, &path, &indexes) == GLOBSET_NO);
    left = -1;
    raw_answers_free(answers);
    answers.object.at = &answers;
    TRY(raw_overlap(made[0], made[5], GLOBSET_RELATIVE_PATHS, 1000, &answers), GLOBSET_DONE,
        CHECK(blocks == before && answers.object.at == &answers));
    left = 0;
    CHECK(raw_answers_at(&answers, 0, &path, &indexes) == GLOBSET_YES && path.count == 1 && path.at[0] == 'a');
    left = -1;
    raw_answers_free(answers);
    answers.object.at = &answers;
    TRY(raw_unreachable(made, GLOBS, GLOBSET_LAST_DECIDES, GLOBSET_ALL_PATHS, 1000, &answers), GLOBSET_DONE,
        CHECK(blocks == before && answers.object.at == &answers));
    left = 0;
    CHECK(raw_answers_at(&answers, 0, &path, &indexes) == GLOBSET_NO && indexes.count == 1 && indexes.at[0] == 5);
    left = -1;
    raw_answers_free(answers);
    for (int i = 0; i < GLOBS; i++) raw_glob_free(made[i]);
}

/* After a failure the walk decides as before. Lines are read without memory, and a walk goes up without memory. */
static void try_ignore(void) {
    const size_t ends[] = {2, 6};
    uint8_t answers[2] = {7, 7};
    globset_told_rule rules[2] = {{7, 7, 7}, {7, 7, 7}};
    raw_ignore ignore = {{&ignore}};
    raw_answers rules_told = {{&rules_told}};
    globset_bytes text;
    globset_indexes lines;
    size_t file = 7, line = 7;
    TRY(raw_ignore_new(0, &ignore), GLOBSET_DONE, CHECK(blocks == before && ignore.object.at == &ignore));
    TRY(raw_ignore_add_file(&ignore, TEXT("*a*b*\n[c\n!/src/ab\nout/")), GLOBSET_DONE,
        CHECK(raw_ignore_unread_lines(&ignore, 0, &lines) == GLOBSET_BAD_INDEX));
    TRY(raw_ignore_enter(&ignore, TEXT("src")), GLOBSET_DONE,
        CHECK(raw_ignore_decide(&ignore, TEXT("src/ab"), 0, 0, &file, &line) == GLOBSET_NO && line == 3));
    TRY(raw_ignore_add_file(&ignore, TEXT("xy")), GLOBSET_DONE,
        CHECK(raw_ignore_unread_lines(&ignore, 1, &lines) == GLOBSET_BAD_INDEX));
    file = line = 7;
    TRY(raw_ignore_decide(&ignore, TEXT("d/ab"), 0, 0, &file, &line), GLOBSET_YES, CHECK(file == 7 && line == 7));
    CHECK(file == 0 && line == 1);
    TRY(raw_ignore_decide_many(&ignore, TEXT("about/"), ends, 2, 0, answers), GLOBSET_DONE,
        CHECK(answers[0] == 7 && answers[1] == 7));
    CHECK(answers[0] == 2 && answers[1] == 1);
    TRY(raw_ignore_rules_many(&ignore, TEXT("about/"), ends, 2, 0, rules), GLOBSET_DONE,
        CHECK(rules[0].line == 7 && rules[1].line == 7));
    CHECK(rules[0].line == 3 && rules[1].line == 4);
    TRY(raw_ignore_unreachable(&ignore, 0, GLOBSET_RELATIVE_PATHS, 1000, &rules_told), GLOBSET_DONE,
        CHECK(blocks == before && rules_told.object.at == &rules_told));
    left = 0;
    CHECK(raw_answers_lines(&rules_told, &lines) == GLOBSET_DONE && lines.count == 3 && lines.at[2] == 4);
    CHECK(raw_answers_at(&rules_told, 2, &text, &lines) == GLOBSET_YES && text.count == 3);
    CHECK(raw_ignore_line_text(&ignore, 0, 2, &text) == GLOBSET_DONE && text.count == 2 && text.at[0] == '[');
    CHECK(raw_ignore_unread_lines(&ignore, 0, &lines) == GLOBSET_DONE && lines.count == 1 && lines.at[0] == 2);
    CHECK(raw_ignore_leave(&ignore) == GLOBSET_DONE);
    CHECK(raw_ignore_unread_lines(&ignore, 1, &lines) == GLOBSET_BAD_INDEX && lines.count == 0);
    left = -1;
    raw_answers_free(rules_told);
    raw_ignore_free(ignore);
}

/* How many bytes were asked for while a set was made that keeps at most so many bytes of rows. */
static size_t bytes_of_set(size_t limit) {
    raw_builder builder;
    raw_set set;
    raw_glob glob = glob_of("src/**/*a*b?[bc]*", 0);
    CHECK(raw_builder_new(&builder) == GLOBSET_DONE && raw_builder_add(&builder, glob) == GLOBSET_DONE);
    raw_builder_set_dfa_size_limit(&builder, limit);
    size_t before = asked;
    CHECK(raw_builder_build(&builder, &set) == GLOBSET_DONE);
    size_t bytes = asked - before;
    raw_glob_free(glob);
    raw_builder_free(builder);
    raw_set_free(set);
    return bytes;
}

int main(void) {
    CHECK(bytes_of_set(0) < bytes_of_set(1 << 20));
    try_texts();
    raw_matcher matcher;
    raw_set set = try_making(&matcher);
    try_set_of_globs();
    try_matcher_searcher(matcher);
    try_plain(set, matcher);
    try_searcher(set);
    try_relations();
    try_ignore();
    raw_matcher_free(matcher);
    raw_set_free(set);
    CHECK(blocks == 0);
    CHECK(failures > 0);
    printf("memory: passed, %ld failures of allocations\n", failures);
    return 0;
}
