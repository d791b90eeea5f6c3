/* Handles by kind over the functions of globset_raw.h, for the tests of these. A handle that is passed by value is lent
 * to the call; one that is passed by address is in that call alone. */
#include "../check.h"
#include "globset_raw.h"

typedef struct raw_glob {
    globset_owned object;
} raw_glob;
typedef struct raw_matcher {
    globset_owned object;
} raw_matcher;
typedef struct raw_matcher_searcher {
    globset_owned object;
} raw_matcher_searcher;
typedef struct raw_builder {
    globset_owned object;
} raw_builder;
typedef struct raw_set {
    globset_owned object;
} raw_set;
typedef struct raw_searcher {
    globset_owned object;
} raw_searcher;
typedef struct raw_answers {
    globset_owned object;
} raw_answers;
typedef struct raw_ignore {
    globset_owned object;
} raw_ignore;

/* A place that may be pointed to where there is nothing. */
static const size_t raw_no_indexes[1] = {0};

static inline globset_lent raw_lend(globset_owned object) {
    globset_lent lent;
    lent.at = object.at;
    return lent;
}

static inline const uint8_t *raw_bytes(const void *bytes) {
    return bytes ? (const uint8_t *)bytes : (const uint8_t *)raw_no_indexes;
}

static inline globset_status raw_glob_new(const void *text, size_t text_len, uint32_t options, globset_error *error,
                                          raw_glob *out) {
    return globset_raw_glob_new(raw_bytes(text), text_len, options, error, &out->object);
}

static inline void raw_glob_free(raw_glob glob) { globset_raw_free(glob.object); }

static inline globset_status raw_error_text(const globset_error *error, const void *text, size_t text_len, char *room,
                                            size_t room_len, size_t *needed) {
    uint8_t none = 0;
    return globset_raw_error_text(error, raw_bytes(text), text_len, room ? (uint8_t *)room : &none, room_len, needed);
}

static inline globset_status raw_glob_regex(raw_glob glob, char *room, size_t room_len, size_t *needed) {
    globset_lent lent = raw_lend(glob.object);
    uint8_t none = 0;
    return globset_raw_glob_regex(&lent, room ? (uint8_t *)room : &none, room_len, needed);
}

static inline globset_status raw_glob_text(raw_glob glob, char *room, size_t room_len, size_t *needed) {
    globset_lent lent = raw_lend(glob.object);
    uint8_t none = 0;
    return globset_raw_glob_text(&lent, room ? (uint8_t *)room : &none, room_len, needed);
}

static inline uint32_t raw_glob_options(raw_glob glob) {
    globset_lent lent = raw_lend(glob.object);
    uint32_t options = 0;
    globset_raw_glob_options(&lent, &options);
    return options;
}

static inline globset_status raw_matcher_new(raw_glob glob, raw_matcher *out) {
    globset_lent lent = raw_lend(glob.object);
    return globset_raw_matcher_new(&lent, &out->object);
}

static inline void raw_matcher_free(raw_matcher matcher) { globset_raw_free(matcher.object); }

static inline globset_status raw_matcher_searcher_new(raw_matcher matcher, raw_matcher_searcher *out) {
    globset_lent lent = raw_lend(matcher.object);
    return globset_raw_matcher_searcher_new(&lent, &out->object);
}

static inline void raw_matcher_searcher_free(raw_matcher_searcher searcher) { globset_raw_free(searcher.object); }

static inline globset_status raw_matcher_searcher_is_match(raw_matcher_searcher *searcher, const void *path,
                                                           size_t path_len) {
    return globset_raw_matcher_searcher_is_match(&searcher->object, raw_bytes(path), path_len);
}

static inline globset_status raw_builder_new(raw_builder *out) { return globset_raw_builder_new(&out->object); }

static inline void raw_builder_free(raw_builder builder) { globset_raw_free(builder.object); }

static inline globset_status raw_builder_add(raw_builder *builder, raw_glob glob) {
    globset_lent lent = raw_lend(glob.object);
    return globset_raw_builder_add(&builder->object, &lent);
}

static inline void raw_builder_set_dfa_size_limit(raw_builder *builder, size_t bytes) {
    globset_raw_builder_set_dfa_size_limit(&builder->object, bytes);
}

static inline globset_status raw_builder_build(raw_builder *builder, raw_set *out) {
    return globset_raw_builder_build(&builder->object, &out->object);
}

static inline void raw_set_free(raw_set set) { globset_raw_free(set.object); }

static inline size_t raw_set_len(raw_set set) {
    globset_lent lent = raw_lend(set.object);
    size_t len = 0;
    globset_raw_set_len(&lent, &len);
    return len;
}

/* The set of globs that are lent by an array of handles. */
static inline globset_status raw_set_of_globs(const raw_glob *globs, size_t count, raw_set *out) {
    globset_lent lents[16] = {{NULL}};
    CHECK(count <= sizeof lents / sizeof *lents);
    for (size_t i = 0; i < count; i++) lents[i] = raw_lend(globs[i].object);
    return globset_raw_set_of_globs(lents, count, &out->object);
}

static inline globset_status raw_searcher_new(raw_set set, raw_searcher *out) {
    globset_lent lent = raw_lend(set.object);
    return globset_raw_searcher_new(&lent, &out->object);
}

static inline void raw_searcher_free(raw_searcher searcher) { globset_raw_free(searcher.object); }

static inline globset_status raw_searcher_is_match(raw_searcher *searcher, const void *path, size_t path_len) {
    return globset_raw_searcher_is_match(&searcher->object, raw_bytes(path), path_len);
}

static inline globset_status raw_searcher_matches_all(raw_searcher *searcher, const void *path, size_t path_len) {
    return globset_raw_searcher_matches_all(&searcher->object, raw_bytes(path), path_len);
}

static inline globset_status raw_searcher_find(raw_searcher *searcher, const void *path, size_t path_len,
                                               size_t *count) {
    return globset_raw_searcher_find(&searcher->object, raw_bytes(path), path_len, count);
}

static inline globset_status raw_searcher_found(raw_searcher *searcher, globset_indexes *indexes) {
    indexes->at = raw_no_indexes;
    indexes->count = 0;
    return globset_raw_searcher_found(&searcher->object, indexes);
}

/* raw_searcher_find, and then raw_searcher_found. */
static inline globset_status raw_searcher_matches(raw_searcher *searcher, const void *path, size_t path_len,
                                                  globset_indexes *indexes) {
    size_t count = 0;
    raw_searcher_find(searcher, path, path_len, &count);
    return raw_searcher_found(searcher, indexes);
}

static inline globset_status raw_searcher_is_match_many(raw_searcher *searcher, const void *paths, size_t paths_len,
                                                        const size_t *ends, uint8_t *answers, size_t count) {
    uint8_t none = 0;
    return globset_raw_searcher_is_match_many(&searcher->object, raw_bytes(paths), paths_len,
                                              ends ? ends : raw_no_indexes, count, answers ? answers : &none, count);
}

static inline globset_status raw_searcher_matches_many(raw_searcher *searcher, const void *paths, size_t paths_len,
                                                       const size_t *ends, size_t *index_ends, size_t count,
                                                       size_t *room, size_t room_len, size_t *needed) {
    size_t none = 0;
    return globset_raw_searcher_matches_many(&searcher->object, raw_bytes(paths), paths_len,
                                             ends ? ends : raw_no_indexes, count, index_ends ? index_ends : &none,
                                             count, room ? room : &none, room_len, needed);
}

static inline globset_status raw_searcher_can_match_below(raw_searcher *searcher, const void *folder,
                                                          size_t folder_len) {
    return globset_raw_searcher_can_match_below(&searcher->object, raw_bytes(folder), folder_len);
}

static inline globset_status raw_escape(const void *text, size_t text_len, char *room, size_t room_len,
                                        size_t *needed) {
    uint8_t none = 0;
    return globset_raw_escape(raw_bytes(text), text_len, room ? (uint8_t *)room : &none, room_len, needed);
}

/* Handles of some globs, for one call. */
enum { RAW_GLOBS = 16 };
static inline void raw_lend_all(const raw_glob *globs, size_t count, globset_lent *lents) {
    CHECK(count <= RAW_GLOBS);
    for (size_t i = 0; i < count; i++) lents[i] = raw_lend(globs[i].object);
}

static inline globset_status raw_covering(raw_glob glob, const raw_glob *by, size_t count, uint32_t domain,
                                          size_t limit, raw_answers *out) {
    globset_lent lent = raw_lend(glob.object), lents[RAW_GLOBS];
    raw_lend_all(by, count, lents);
    return globset_raw_covering(&lent, lents, count, domain, limit, &out->object);
}

static inline globset_status raw_overlap(raw_glob a, raw_glob b, uint32_t domain, size_t limit, raw_answers *out) {
    globset_lent lent_a = raw_lend(a.object), lent_b = raw_lend(b.object);
    return globset_raw_overlap(&lent_a, &lent_b, domain, limit, &out->object);
}

static inline globset_status raw_unreachable(const raw_glob *globs, size_t count, uint32_t decides, uint32_t domain,
                                             size_t limit, raw_answers *out) {
    globset_lent lents[RAW_GLOBS];
    raw_lend_all(globs, count, lents);
    return globset_raw_unreachable(lents, count, decides, domain, limit, &out->object);
}

/* Reads an answer into places that had something else before. */
static inline globset_status raw_answers_at(raw_answers *answers, size_t index, globset_bytes *path,
                                            globset_indexes *indexes) {
    path->at = (const uint8_t *)raw_no_indexes;
    indexes->at = raw_no_indexes;
    path->count = indexes->count = 1;
    return globset_raw_answers_at(&answers->object, index, path, indexes);
}

/* Reads lines into a place that had something else before. */
static inline globset_status raw_answers_lines(raw_answers *answers, globset_indexes *lines) {
    lines->at = raw_no_indexes;
    lines->count = 1;
    return globset_raw_answers_lines(&answers->object, lines);
}

static inline void raw_answers_free(raw_answers answers) { globset_raw_free(answers.object); }

static inline globset_status raw_ignore_new(uint32_t options, raw_ignore *out) {
    return globset_raw_ignore_new(options, &out->object);
}

static inline void raw_ignore_free(raw_ignore ignore) { globset_raw_free(ignore.object); }

static inline globset_status raw_ignore_set_dfa_size_limit(raw_ignore *ignore, size_t bytes) {
    return globset_raw_ignore_set_dfa_size_limit(&ignore->object, bytes);
}

static inline globset_status raw_ignore_add_file(raw_ignore *ignore, const void *file, size_t file_len) {
    return globset_raw_ignore_add_file(&ignore->object, raw_bytes(file), file_len);
}

static inline globset_status raw_ignore_enter(raw_ignore *ignore, const void *name, size_t name_len) {
    return globset_raw_ignore_enter(&ignore->object, raw_bytes(name), name_len);
}

static inline globset_status raw_ignore_leave(raw_ignore *ignore) { return globset_raw_ignore_leave(&ignore->object); }

static inline globset_status raw_ignore_decide(raw_ignore *ignore, const void *path, size_t path_len,
                                               uint32_t is_directory, uint32_t by, size_t *file, size_t *line) {
    return globset_raw_ignore_decide(&ignore->object, raw_bytes(path), path_len, is_directory, by, file, line);
}

static inline globset_status raw_ignore_decide_many(raw_ignore *ignore, const void *paths, size_t paths_len,
                                                    const size_t *ends, size_t count, uint32_t by, uint8_t *answers) {
    return globset_raw_ignore_decide_many(&ignore->object, raw_bytes(paths), paths_len, ends ? ends : raw_no_indexes,
                                          count, by, answers, count);
}

static inline globset_status raw_ignore_rules_many(raw_ignore *ignore, const void *paths, size_t paths_len,
                                                   const size_t *ends, size_t count, uint32_t by,
                                                   globset_told_rule *rules) {
    return globset_raw_ignore_rules_many(&ignore->object, raw_bytes(paths), paths_len, ends ? ends : raw_no_indexes,
                                         count, by, rules, count);
}

/* Reads lines into a place that had something else before. */
static inline globset_status raw_ignore_unread_lines(raw_ignore *ignore, size_t file, globset_indexes *lines) {
    lines->at = raw_no_indexes;
    lines->count = 1;
    return globset_raw_ignore_unread_lines(&ignore->object, file, lines);
}

static inline globset_status raw_ignore_line_text(raw_ignore *ignore, size_t file, size_t line, globset_bytes *text) {
    text->at = (const uint8_t *)raw_no_indexes;
    text->count = 1;
    return globset_raw_ignore_line_text(&ignore->object, file, line, text);
}

static inline globset_status raw_ignore_unreachable(raw_ignore *ignore, size_t file, uint32_t domain, size_t limit,
                                                    raw_answers *out) {
    return globset_raw_ignore_unreachable(&ignore->object, file, domain, limit, &out->object);
}

static inline raw_glob glob_of(const char *text, uint32_t options) {
    raw_glob glob;
    globset_error error = {0, 0, 0, 0};
    CHECK(raw_glob_new(TEXT(text), options, &error, &glob) == GLOBSET_DONE);
    return glob;
}

/* The set of globs under the default options. */
static inline raw_set set_of(const char *const *texts, size_t count) {
    raw_builder builder;
    raw_set set;
    CHECK(raw_builder_new(&builder) == GLOBSET_DONE);
    for (size_t i = 0; i < count; i++) {
        raw_glob glob = glob_of(texts[i], 0);
        CHECK(raw_builder_add(&builder, glob) == GLOBSET_DONE);
        raw_glob_free(glob);
    }
    CHECK(raw_builder_build(&builder, &set) == GLOBSET_DONE);
    raw_builder_free(builder);
    return set;
}
