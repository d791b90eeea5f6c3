/* globset.c: the functions of globset.h, over the proved ones of globset_raw.h. This file is read and tested, and not
 * proved.
 *
 * It tests pointers for null, passes texts and objects on, and turns statuses into results. A pointer to an object is
 * the address in its raw handle. That address stays the same: globs and sets are lent alone, and the calls on the others
 * reach the object through the handle, which they do not write (`Owned::as_mut` in crates/c_objects). */
#include "globset_raw.h"

#include "allocator.h"

#include <stdbool.h>
#include <string.h>

/* What is passed on in place of null: an address of bytes, of indexes and of rules, of which none are read or written. */
static const size_t no_items[1];
static size_t no_numbers[1];
static uint8_t no_room[1];
static globset_told_rule no_rules[1];
static const globset_error no_error = {0, 0, 0, 0};

/* ---- Results ---- */

const char *globset_status_text(int status) {
    static const char *const errors[] = {
        "success, or the answer is no",
        "a pointer is null that must not be",
        "out of memory",
        "the text is no glob",
        "the text of a glob is not UTF-8",
        "the options have an unknown bit, or there is no such domain or choice",
        "an end offset is below the one before it, or beyond the bytes",
        "the buffer is too small",
        "an object is of another kind than its pointer says",
        "the error is none, so it says nothing",
        "a length, a size or a count is larger than any array can be",
        "a search has more rows than its limit",
        "there is no answer, ignore file or line of this index",
    };
    static const int count = sizeof errors / sizeof *errors;
    if (status == 1) return "the answer is yes";
    return status <= 0 && status > -count ? errors[-status] : "no result of this library";
}

static int result_of(globset_status status) {
    switch (status) {
    case GLOBSET_DONE: return GLOBSET_OK;
    case GLOBSET_NO: return 0;
    case GLOBSET_BELOW_IGNORED: return 0;
    case GLOBSET_YES: return 1;
    case GLOBSET_OUT_OF_MEMORY: return GLOBSET_ENOMEM;
    case GLOBSET_REJECTED: return GLOBSET_EGLOB;
    case GLOBSET_NOT_UTF8: return GLOBSET_EUTF8;
    case GLOBSET_UNKNOWN_OPTION: return GLOBSET_EOPTIONS;
    case GLOBSET_BAD_ENDS: return GLOBSET_EOFFSETS;
    case GLOBSET_TOO_SMALL: return GLOBSET_EBUFFER;
    case GLOBSET_LIMIT_REACHED: return GLOBSET_ELIMIT;
    case GLOBSET_BAD_INDEX: return GLOBSET_EINDEX;
    default: return GLOBSET_EKIND;
    }
}

const char *globset_version_text(void) { return GLOBSET_VERSION_TEXT; }

/* ---- Texts and objects ---- */

/* The bytes that a caller passes. The address is never null. */
struct bytes {
    const uint8_t *at;
    size_t length;
};

/* Finds the bytes that a pointer and a length stand for. Returns GLOBSET_OK, or GLOBSET_ENULL if the pointer is null and
 * must not be, or GLOBSET_ELENGTH if no array has this length. */
static int find_bytes(const char *at, size_t length, struct bytes *bytes) {
    if (at == NULL) {
        bytes->at = (const uint8_t *)no_items;
        bytes->length = 0;
        return length == 0 ? GLOBSET_OK : GLOBSET_ENULL;
    }
    bytes->at = (const uint8_t *)at;
    bytes->length = length == GLOBSET_ZERO_TERMINATED ? strlen(at) : length;
    return bytes->length < GLOBSET_ZERO_TERMINATED ? GLOBSET_OK : GLOBSET_ELENGTH;
}

/* Whether no array has so many members of type size_t, or pointers. */
static bool is_too_many(size_t count) { return count >= GLOBSET_ZERO_TERMINATED / sizeof(size_t); }

static uint8_t *room_in(char *buffer) { return buffer != NULL ? (uint8_t *)buffer : no_room; }

/* How many bytes of a buffer are left beside the NUL. */
static size_t room_of(size_t size) { return size > 0 ? size - 1 : 0; }

/* Ends a call that wrote a text of `needed` bytes into a buffer, or found that it has no room for it. */
static int end_text(globset_status status, char *buffer, size_t size, size_t needed, size_t *length) {
    bool has_text = status == GLOBSET_DONE || status == GLOBSET_TOO_SMALL;
    if (length != NULL) *length = has_text ? needed : 0;
    if (status != GLOBSET_DONE) return result_of(status);
    if (size == 0) return GLOBSET_EBUFFER;
    buffer[needed] = '\0';
    return GLOBSET_OK;
}

/* Tests what a call is passed that writes a text into a buffer: whether an object is there, what find_bytes said of its
 * bytes, and the buffer. Sets the length to 0. */
static int begin_text(bool is_there, int found, const char *buffer, size_t size, size_t *length) {
    if (length != NULL) *length = 0;
    if (!is_there || (buffer == NULL && size > 0)) return GLOBSET_ENULL;
    return found == GLOBSET_OK && size >= GLOBSET_ZERO_TERMINATED ? GLOBSET_ELENGTH : found;
}

static globset_lent lend(const void *object) {
    globset_lent lent;
    lent.at = object;
    return lent;
}

static globset_owned own(void *object) {
    globset_owned owned;
    owned.at = object;
    return owned;
}

static void free_object(void *object) {
    if (object != NULL) globset_raw_free(own(object));
}

/* Frees an object if a call on it said so that it is of the kind that its `_free` is for. */
static void free_if(globset_status status, void *object) {
    if (status == GLOBSET_DONE) free_object(object);
}

/* ---- Errors of globs ---- */

int globset_error_text(const globset_error *error, const char *text, size_t text_length, char *buffer, size_t size,
                       size_t *length) {
    struct bytes bytes;
    size_t needed = 0;
    globset_status status;
    int begun = begin_text(error != NULL, find_bytes(text, text_length, &bytes), buffer, size, length);
    if (begun != GLOBSET_OK) return begun;
    status = globset_raw_error_text(error, bytes.at, bytes.length, room_in(buffer), room_of(size), &needed);
    if (status != GLOBSET_NO) return end_text(status, buffer, size, needed, length);
    if (length != NULL) *length = 0;
    return GLOBSET_ENONE;
}

int globset_escape(const char *text, size_t text_length, char *buffer, size_t size, size_t *length) {
    struct bytes bytes;
    size_t needed = 0;
    globset_status status;
    int begun = begin_text(true, find_bytes(text, text_length, &bytes), buffer, size, length);
    if (begun != GLOBSET_OK) return begun;
    status = globset_raw_escape(bytes.at, bytes.length, room_in(buffer), room_of(size), &needed);
    return end_text(status, buffer, size, needed, length);
}

/* ---- Globs ---- */

int globset_glob_new(const char *text, size_t length, uint32_t options, globset_error *error, globset_glob **glob) {
    globset_error found = no_error;
    globset_owned made = own(NULL);
    struct bytes bytes;
    globset_status status;
    int result;
    if (error != NULL) *error = found;
    if (glob == NULL) return GLOBSET_ENULL;
    *glob = NULL;
    result = find_bytes(text, length, &bytes);
    if (result != GLOBSET_OK) return result;
    status = globset_raw_glob_new(bytes.at, bytes.length, options, &found, &made);
    if (error != NULL) *error = found;
    *glob = made.at;
    return result_of(status);
}

int globset_glob_text(const globset_glob *glob, char *buffer, size_t size, size_t *length) {
    globset_lent lent = lend(glob);
    size_t needed = 0;
    globset_status status;
    int begun = begin_text(glob != NULL, GLOBSET_OK, buffer, size, length);
    if (begun != GLOBSET_OK) return begun;
    status = globset_raw_glob_text(&lent, room_in(buffer), room_of(size), &needed);
    return end_text(status, buffer, size, needed, length);
}

uint32_t globset_glob_options(const globset_glob *glob) {
    globset_lent lent = lend(glob);
    uint32_t options = 0;
    if (glob != NULL) (void)globset_raw_glob_options(&lent, &options);
    return options;
}

int globset_glob_regex(const globset_glob *glob, char *buffer, size_t size, size_t *length) {
    globset_lent lent = lend(glob);
    size_t needed = 0;
    globset_status status;
    int begun = begin_text(glob != NULL, GLOBSET_OK, buffer, size, length);
    if (begun != GLOBSET_OK) return begun;
    status = globset_raw_glob_regex(&lent, room_in(buffer), room_of(size), &needed);
    return end_text(status, buffer, size, needed, length);
}

void globset_glob_free(globset_glob *glob) {
    globset_lent lent = lend(glob);
    uint32_t options = 0;
    if (glob != NULL) free_if(globset_raw_glob_options(&lent, &options), glob);
}

/* ---- Matchers ---- */

/* A `globset_matcher` is a searcher of a matcher. The matcher is freed, since the searcher has all that it needs. */
int globset_matcher_new(const globset_glob *glob, globset_matcher **matcher) {
    globset_lent lent = lend(glob);
    globset_owned raw = own(NULL), made = own(NULL);
    globset_status status;
    if (matcher == NULL) return GLOBSET_ENULL;
    *matcher = NULL;
    if (glob == NULL) return GLOBSET_ENULL;
    status = globset_raw_matcher_new(&lent, &raw);
    if (status != GLOBSET_DONE) return result_of(status);
    lent = lend(raw.at);
    status = globset_raw_matcher_searcher_new(&lent, &made);
    free_object(raw.at);
    *matcher = made.at;
    return result_of(status);
}

int globset_matcher_is_match(globset_matcher *matcher, const char *path, size_t length) {
    globset_owned owned = own(matcher);
    struct bytes bytes;
    int result = find_bytes(path, length, &bytes);
    if (matcher == NULL) return GLOBSET_ENULL;
    if (result != GLOBSET_OK) return result;
    return result_of(globset_raw_matcher_searcher_is_match(&owned, bytes.at, bytes.length));
}

void globset_matcher_free(globset_matcher *matcher) {
    globset_owned owned = own(matcher);
    if (matcher != NULL && globset_raw_matcher_searcher_is_match(&owned, no_room, 0) != GLOBSET_WRONG_KIND)
        free_object(matcher);
}

/* ---- Builders ---- */

int globset_builder_new(globset_builder **builder) {
    globset_owned made = own(NULL);
    globset_status status;
    if (builder == NULL) return GLOBSET_ENULL;
    status = globset_raw_builder_new(&made);
    *builder = made.at;
    return result_of(status);
}

int globset_builder_add(globset_builder *builder, const globset_glob *glob) {
    globset_owned owned = own(builder);
    globset_lent lent = lend(glob);
    if (builder == NULL || glob == NULL) return GLOBSET_ENULL;
    return result_of(globset_raw_builder_add(&owned, &lent));
}

int globset_builder_set_dfa_size_limit(globset_builder *builder, size_t bytes) {
    globset_owned owned = own(builder);
    if (builder == NULL) return GLOBSET_ENULL;
    return result_of(globset_raw_builder_set_dfa_size_limit(&owned, bytes));
}

int globset_builder_build(globset_builder *builder, globset_set **set) {
    globset_owned owned = own(builder), made = own(NULL);
    globset_status status;
    if (set == NULL) return GLOBSET_ENULL;
    *set = NULL;
    if (builder == NULL) return GLOBSET_ENULL;
    status = globset_raw_builder_build(&owned, &made);
    *set = made.at;
    return result_of(status);
}

void globset_builder_free(globset_builder *builder) {
    globset_owned owned = own(builder);
    if (builder != NULL) free_if(globset_raw_builder_set_dfa_size_limit(&owned, 0), builder);
}

/* ---- Sets ---- */

static int add_text(globset_builder *builder, const char *text, size_t length, uint32_t options, globset_error *error) {
    globset_glob *glob;
    int result = globset_glob_new(text, length, options, error, &glob);
    if (result == GLOBSET_OK) result = globset_builder_add(builder, glob);
    globset_glob_free(glob);
    return result;
}

int globset_set_new(const char *const *texts, const size_t *lengths, const uint32_t *options, size_t count,
                    globset_error *error, size_t *index, globset_set **set) {
    globset_builder *builder = NULL;
    int result;
    if (error != NULL) *error = no_error;
    if (index != NULL) *index = 0;
    if (set == NULL) return GLOBSET_ENULL;
    *set = NULL;
    if (is_too_many(count)) return GLOBSET_ELENGTH;
    if (texts == NULL && count > 0) return GLOBSET_ENULL;
    result = globset_builder_new(&builder);
    for (size_t i = 0; i < count && result == GLOBSET_OK; i++) {
        size_t length = lengths != NULL ? lengths[i] : GLOBSET_ZERO_TERMINATED;
        if (index != NULL) *index = i;
        result = add_text(builder, texts[i], length, options != NULL ? options[i] : 0, error);
    }
    if (result == GLOBSET_OK) result = globset_builder_build(builder, set);
    globset_builder_free(builder);
    return result;
}

size_t globset_set_length(const globset_set *set) {
    globset_lent lent = lend(set);
    size_t length = 0;
    if (set != NULL) (void)globset_raw_set_len(&lent, &length);
    return length;
}

int globset_set_is_match(const globset_set *set, const char *path, size_t length) {
    globset_lent lent = lend(set);
    struct bytes bytes;
    int result = find_bytes(path, length, &bytes);
    if (set == NULL) return GLOBSET_ENULL;
    if (result != GLOBSET_OK) return result;
    return result_of(globset_raw_set_is_match_plain(&lent, bytes.at, bytes.length));
}

void globset_set_free(globset_set *set) {
    globset_lent lent = lend(set);
    size_t length = 0;
    if (set != NULL) free_if(globset_raw_set_len(&lent, &length), set);
}

/* ---- Searchers ---- */

int globset_searcher_new(const globset_set *set, globset_searcher **searcher) {
    globset_lent lent = lend(set);
    globset_owned made = own(NULL);
    globset_status status;
    if (searcher == NULL) return GLOBSET_ENULL;
    *searcher = NULL;
    if (set == NULL) return GLOBSET_ENULL;
    status = globset_raw_searcher_new(&lent, &made);
    *searcher = made.at;
    return result_of(status);
}

int globset_searcher_is_match(globset_searcher *searcher, const char *path, size_t length) {
    globset_owned owned = own(searcher);
    struct bytes bytes;
    int result = find_bytes(path, length, &bytes);
    if (searcher == NULL) return GLOBSET_ENULL;
    if (result != GLOBSET_OK) return result;
    return result_of(globset_raw_searcher_is_match(&owned, bytes.at, bytes.length));
}

int globset_searcher_matches_all(globset_searcher *searcher, const char *path, size_t length) {
    globset_owned owned = own(searcher);
    struct bytes bytes;
    int result = find_bytes(path, length, &bytes);
    if (searcher == NULL) return GLOBSET_ENULL;
    if (result != GLOBSET_OK) return result;
    return result_of(globset_raw_searcher_matches_all(&owned, bytes.at, bytes.length));
}

int globset_searcher_find(globset_searcher *searcher, const char *path, size_t length, const size_t **indexes,
                          size_t *count) {
    globset_owned owned = own(searcher);
    globset_indexes found = {no_items, 0};
    struct bytes bytes;
    globset_status status;
    size_t number = 0;
    int result;
    if (indexes != NULL) *indexes = NULL;
    if (count != NULL) *count = 0;
    if (searcher == NULL || indexes == NULL || count == NULL) return GLOBSET_ENULL;
    result = find_bytes(path, length, &bytes);
    if (result != GLOBSET_OK) return result;
    status = globset_raw_searcher_find(&owned, bytes.at, bytes.length, &number);
    if (status == GLOBSET_DONE) status = globset_raw_searcher_found(&owned, &found);
    if (status != GLOBSET_DONE) return result_of(status);
    *indexes = found.at;
    *count = found.count;
    return GLOBSET_OK;
}

int globset_searcher_can_match_below(globset_searcher *searcher, const char *folder, size_t length) {
    globset_owned owned = own(searcher);
    struct bytes bytes;
    int result = find_bytes(folder, length, &bytes);
    if (searcher == NULL) return GLOBSET_ENULL;
    if (result != GLOBSET_OK) return result;
    return result_of(globset_raw_searcher_can_match_below(&owned, bytes.at, bytes.length));
}

int globset_searcher_is_match_many(globset_searcher *searcher, const char *paths, size_t length,
                                   const size_t *end_offsets, size_t count, uint8_t *answers) {
    globset_owned owned = own(searcher);
    struct bytes bytes;
    int result = find_bytes(paths, length, &bytes);
    if (searcher == NULL) return GLOBSET_ENULL;
    if (result != GLOBSET_OK) return result;
    if (is_too_many(count)) return GLOBSET_ELENGTH;
    if (count > 0 && (end_offsets == NULL || answers == NULL)) return GLOBSET_ENULL;
    if (end_offsets == NULL) end_offsets = no_items;
    if (answers == NULL) answers = no_room;
    return result_of(
        globset_raw_searcher_is_match_many(&owned, bytes.at, bytes.length, end_offsets, count, answers, count));
}

int globset_searcher_find_many(globset_searcher *searcher, const char *paths, size_t length, const size_t *end_offsets,
                               size_t count, size_t *index_ends, size_t *indexes, size_t size, size_t *index_count) {
    globset_owned owned = own(searcher);
    struct bytes bytes;
    globset_status status;
    int result = find_bytes(paths, length, &bytes);
    if (index_count == NULL) return GLOBSET_ENULL;
    *index_count = 0;
    if (searcher == NULL) return GLOBSET_ENULL;
    if (result != GLOBSET_OK) return result;
    if (is_too_many(count) || is_too_many(size)) return GLOBSET_ELENGTH;
    if ((count > 0 && (end_offsets == NULL || index_ends == NULL)) || (size > 0 && indexes == NULL))
        return GLOBSET_ENULL;
    if (end_offsets == NULL) end_offsets = no_items;
    if (index_ends == NULL) index_ends = no_numbers;
    if (indexes == NULL) indexes = no_numbers;
    status = globset_raw_searcher_matches_many(&owned, bytes.at, bytes.length, end_offsets, count, index_ends, count,
                                               indexes, size, index_count);
    return result_of(status);
}

void globset_searcher_free(globset_searcher *searcher) {
    globset_owned owned = own(searcher);
    globset_indexes found = {no_items, 0};
    if (searcher != NULL) free_if(globset_raw_searcher_found(&owned, &found), searcher);
}

/* ---- Questions about all paths ---- */

/* Makes a handle of each glob, since a call writes the handles that it is passed. */
static int lend_globs(const globset_glob *const *globs, size_t count, globset_lent **lents) {
    struct rattle_block block;
    *lents = NULL;
    if (is_too_many(count)) return GLOBSET_ELENGTH;
    if (globs == NULL && count > 0) return GLOBSET_ENULL;
    for (size_t i = 0; i < count; i++)
        if (globs[i] == NULL) return GLOBSET_ENULL;
    /* There is room for one more, since no array may be null. */
    block = rattle_alloc((count + 1) * sizeof **lents, sizeof(void *));
    if (!block.ok) return GLOBSET_ENOMEM;
    *lents = block.at;
    for (size_t i = 0; i < count; i++) (*lents)[i] = lend(globs[i]);
    return GLOBSET_OK;
}

int globset_covering(const globset_glob *glob, const globset_glob *const *by, size_t count, uint32_t domain,
                     size_t limit, globset_answers **answers) {
    globset_lent lent = lend(glob), *lents;
    globset_owned made = own(NULL);
    int result;
    if (answers == NULL) return GLOBSET_ENULL;
    *answers = NULL;
    if (glob == NULL) return GLOBSET_ENULL;
    result = lend_globs(by, count, &lents);
    if (result != GLOBSET_OK) return result;
    result = result_of(globset_raw_covering(&lent, lents, count, domain, limit, &made));
    rattle_dealloc(lents);
    *answers = made.at;
    return result;
}

int globset_overlap(const globset_glob *a, const globset_glob *b, uint32_t domain, size_t limit,
                    globset_answers **answers) {
    globset_lent lent_a = lend(a), lent_b = lend(b);
    globset_owned made = own(NULL);
    globset_status status;
    if (answers == NULL) return GLOBSET_ENULL;
    *answers = NULL;
    if (a == NULL || b == NULL) return GLOBSET_ENULL;
    status = globset_raw_overlap(&lent_a, &lent_b, domain, limit, &made);
    *answers = made.at;
    return result_of(status);
}

int globset_unreachable(const globset_glob *const *globs, size_t count, uint32_t decides, uint32_t domain, size_t limit,
                        globset_answers **answers) {
    globset_lent *lents;
    globset_owned made = own(NULL);
    int result;
    if (answers == NULL) return GLOBSET_ENULL;
    *answers = NULL;
    result = lend_globs(globs, count, &lents);
    if (result != GLOBSET_OK) return result;
    result = result_of(globset_raw_unreachable(lents, count, decides, domain, limit, &made));
    rattle_dealloc(lents);
    *answers = made.at;
    return result;
}

/* Reads the answer of an index. */
static globset_status read_answer(globset_answers *answers, size_t index, globset_bytes *path,
                                  globset_indexes *indexes) {
    globset_owned owned = own(answers);
    path->at = (const uint8_t *)no_items;
    path->count = 0;
    indexes->at = no_items;
    indexes->count = 0;
    return globset_raw_answers_at(&owned, index, path, indexes);
}

/* Whether a status of read_answer tells whether there is a path. */
static bool is_known(globset_status status) {
    return status == GLOBSET_YES || status == GLOBSET_NO || status == GLOBSET_BELOW_IGNORED;
}

int globset_answers_has_path(globset_answers *answers, size_t index, const char **path, size_t *length) {
    globset_bytes found;
    globset_indexes indexes;
    globset_status status;
    if (path != NULL) *path = NULL;
    if (length != NULL) *length = 0;
    if (answers == NULL) return GLOBSET_ENULL;
    status = read_answer(answers, index, &found, &indexes);
    if (status == GLOBSET_YES && path != NULL) *path = (const char *)found.at;
    if (status == GLOBSET_YES && length != NULL) *length = found.count;
    return result_of(status);
}

int globset_answers_indexes(globset_answers *answers, size_t index, const size_t **indexes, size_t *count) {
    globset_bytes path;
    globset_indexes found;
    globset_status status;
    if (indexes != NULL) *indexes = NULL;
    if (count != NULL) *count = 0;
    if (answers == NULL || indexes == NULL || count == NULL) return GLOBSET_ENULL;
    status = read_answer(answers, index, &path, &found);
    if (!is_known(status)) return result_of(status);
    *indexes = found.at;
    *count = found.count;
    return GLOBSET_OK;
}

void globset_answers_free(globset_answers *answers) {
    globset_bytes path;
    globset_indexes indexes;
    if (answers != NULL && read_answer(answers, 0, &path, &indexes) != GLOBSET_WRONG_KIND) free_object(answers);
}

/* ---- Ignore files ---- */

int globset_ignore_new(uint32_t options, globset_ignore **ignore) {
    globset_owned made = own(NULL);
    globset_status status;
    if (ignore == NULL) return GLOBSET_ENULL;
    status = globset_raw_ignore_new(options, &made);
    *ignore = made.at;
    return result_of(status);
}

int globset_ignore_set_dfa_size_limit(globset_ignore *ignore, size_t bytes) {
    globset_owned owned = own(ignore);
    if (ignore == NULL) return GLOBSET_ENULL;
    return result_of(globset_raw_ignore_set_dfa_size_limit(&owned, bytes));
}

int globset_ignore_add_file(globset_ignore *ignore, const char *file, size_t length) {
    globset_owned owned = own(ignore);
    struct bytes bytes;
    int result = find_bytes(file, length, &bytes);
    if (ignore == NULL) return GLOBSET_ENULL;
    if (result != GLOBSET_OK) return result;
    return result_of(globset_raw_ignore_add_file(&owned, bytes.at, bytes.length));
}

/* Takes a `/` off the end of a path. Returns whether there was one, and so the path is that of a directory. */
static bool take_slash(struct bytes *path) {
    if (path->length == 0 || path->at[path->length - 1] != '/') return false;
    path->length--;
    return true;
}

int globset_ignore_enter(globset_ignore *ignore, const char *name, size_t length) {
    globset_owned owned = own(ignore);
    struct bytes bytes;
    int result = find_bytes(name, length, &bytes);
    if (ignore == NULL) return GLOBSET_ENULL;
    if (result != GLOBSET_OK) return result;
    (void)take_slash(&bytes);
    return result_of(globset_raw_ignore_enter(&owned, bytes.at, bytes.length));
}

int globset_ignore_leave(globset_ignore *ignore) {
    globset_owned owned = own(ignore);
    if (ignore == NULL) return GLOBSET_ENULL;
    return result_of(globset_raw_ignore_leave(&owned));
}

int globset_ignore_is_ignored(globset_ignore *ignore, const char *path, size_t length, int is_directory, uint32_t by,
                              globset_rule *rule) {
    globset_owned owned = own(ignore);
    globset_rule found = {0, 0};
    struct bytes bytes;
    bool is_folder = is_directory != 0;
    globset_status status;
    int result = find_bytes(path, length, &bytes);
    if (rule != NULL) *rule = found;
    if (ignore == NULL) return GLOBSET_ENULL;
    if (result != GLOBSET_OK) return result;
    if (take_slash(&bytes)) is_folder = true;
    status = globset_raw_ignore_decide(&owned, bytes.at, bytes.length, is_folder, by, &found.file, &found.line);
    if (rule != NULL) *rule = found;
    return result_of(status);
}

int globset_ignore_decide_many(globset_ignore *ignore, const char *paths, size_t length, const size_t *end_offsets,
                               size_t count, uint32_t by, uint8_t *answers) {
    globset_owned owned = own(ignore);
    struct bytes bytes;
    int result = find_bytes(paths, length, &bytes);
    if (ignore == NULL) return GLOBSET_ENULL;
    if (result != GLOBSET_OK) return result;
    if (is_too_many(count)) return GLOBSET_ELENGTH;
    if (count > 0 && (end_offsets == NULL || answers == NULL)) return GLOBSET_ENULL;
    if (end_offsets == NULL) end_offsets = no_items;
    if (answers == NULL) answers = no_room;
    return result_of(
        globset_raw_ignore_decide_many(&owned, bytes.at, bytes.length, end_offsets, count, by, answers, count));
}

int globset_ignore_rules_many(globset_ignore *ignore, const char *paths, size_t length, const size_t *end_offsets,
                              size_t count, uint32_t by, globset_told_rule *rules) {
    globset_owned owned = own(ignore);
    struct bytes bytes;
    int result = find_bytes(paths, length, &bytes);
    if (ignore == NULL) return GLOBSET_ENULL;
    if (result != GLOBSET_OK) return result;
    if (count >= GLOBSET_ZERO_TERMINATED / sizeof *rules) return GLOBSET_ELENGTH;
    if (count > 0 && (end_offsets == NULL || rules == NULL)) return GLOBSET_ENULL;
    if (end_offsets == NULL) end_offsets = no_items;
    if (rules == NULL) rules = no_rules;
    return result_of(
        globset_raw_ignore_rules_many(&owned, bytes.at, bytes.length, end_offsets, count, by, rules, count));
}

int globset_ignore_unread_lines(globset_ignore *ignore, size_t file, const size_t **lines, size_t *count) {
    globset_owned owned = own(ignore);
    globset_indexes found = {no_items, 0};
    globset_status status;
    if (lines != NULL) *lines = NULL;
    if (count != NULL) *count = 0;
    if (ignore == NULL || lines == NULL || count == NULL) return GLOBSET_ENULL;
    status = globset_raw_ignore_unread_lines(&owned, file, &found);
    if (status != GLOBSET_DONE) return result_of(status);
    *lines = found.at;
    *count = found.count;
    return GLOBSET_OK;
}

int globset_ignore_line_text(globset_ignore *ignore, size_t file, size_t line, const char **text, size_t *length) {
    globset_owned owned = own(ignore);
    globset_bytes found = {(const uint8_t *)no_items, 0};
    globset_status status;
    if (text != NULL) *text = NULL;
    if (length != NULL) *length = 0;
    if (ignore == NULL || text == NULL) return GLOBSET_ENULL;
    status = globset_raw_ignore_line_text(&owned, file, line, &found);
    if (status != GLOBSET_DONE) return result_of(status);
    *text = (const char *)found.at;
    if (length != NULL) *length = found.count;
    return GLOBSET_OK;
}

void globset_ignore_free(globset_ignore *ignore) {
    globset_owned owned = own(ignore);
    globset_indexes lines = {no_items, 0};
    if (ignore != NULL && globset_raw_ignore_unread_lines(&owned, 0, &lines) != GLOBSET_WRONG_KIND) free_object(ignore);
}

/* ---- Rules that never decide ---- */

int globset_ignore_unreachable(globset_ignore *ignore, size_t file, uint32_t domain, size_t limit,
                               globset_answers **answers) {
    globset_owned owned = own(ignore), made = own(NULL);
    globset_status status;
    if (answers == NULL) return GLOBSET_ENULL;
    *answers = NULL;
    if (ignore == NULL) return GLOBSET_ENULL;
    status = globset_raw_ignore_unreachable(&owned, file, domain, limit, &made);
    *answers = made.at;
    return result_of(status);
}

/* Finds the lines of the rules that answers are about. Returns GLOBSET_OK only if the one of an index is among them. */
static int read_lines(globset_answers *answers, size_t index, globset_indexes *lines) {
    globset_owned owned = own(answers);
    globset_status status;
    lines->at = no_items;
    lines->count = 0;
    status = globset_raw_answers_lines(&owned, lines);
    if (status != GLOBSET_DONE) return result_of(status);
    return index < lines->count ? GLOBSET_OK : GLOBSET_EINDEX;
}

int globset_answers_rule(globset_answers *answers, size_t index, size_t *line, uint32_t *found) {
    globset_bytes path;
    globset_indexes indexes, lines;
    int result;
    if (line != NULL) *line = 0;
    if (found != NULL) *found = GLOBSET_UNKNOWN;
    if (answers == NULL || line == NULL || found == NULL) return GLOBSET_ENULL;
    result = read_lines(answers, index, &lines);
    if (result != GLOBSET_OK) return result;
    *line = lines.at[index];
    switch (read_answer(answers, index, &path, &indexes)) {
    case GLOBSET_YES: *found = GLOBSET_DECIDES; break;
    case GLOBSET_NO: *found = GLOBSET_COVERED; break;
    case GLOBSET_BELOW_IGNORED: *found = GLOBSET_IN_IGNORED; break;
    default: break;
    }
    return GLOBSET_OK;
}

int globset_answers_lines(globset_answers *answers, size_t index, size_t *lines, size_t size, size_t *count) {
    globset_bytes path;
    globset_indexes indexes, all;
    globset_status status;
    int result;
    if (count == NULL) return GLOBSET_ENULL;
    *count = 0;
    if (answers == NULL || (lines == NULL && size > 0)) return GLOBSET_ENULL;
    if (is_too_many(size)) return GLOBSET_ELENGTH;
    result = read_lines(answers, index, &all);
    if (result != GLOBSET_OK) return result;
    status = read_answer(answers, index, &path, &indexes);
    if (!is_known(status)) return result_of(status);
    *count = indexes.count;
    if (indexes.count > size) return GLOBSET_EBUFFER;
    /* The indexes may be read until the lines are. */
    for (size_t i = 0; i < *count; i++) lines[i] = indexes.at[i];
    result = read_lines(answers, index, &all);
    for (size_t i = 0; i < *count && result == GLOBSET_OK; i++) lines[i] = all.at[lines[i]];
    return result;
}
