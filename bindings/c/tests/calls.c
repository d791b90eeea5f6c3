/* Each function of globset.h once or more, with each result that it has. misuse.c is for null and for objects of a
 * wrong kind, memory.c for GLOBSET_ENOMEM. */
#include "objects.h"

static void versions(void) {
    CHECK(globset_version() == GLOBSET_VERSION && GLOBSET_VERSION == 4021);
    CHECK(globset_interface() == GLOBSET_INTERFACE && GLOBSET_INTERFACE == 1);
    char text[20];
    snprintf(text, sizeof text, "0.4.21.%d", GLOBSET_BUILD);
    CHECK(strcmp(globset_version_text(), GLOBSET_VERSION_TEXT) == 0 && strcmp(text, GLOBSET_VERSION_TEXT) == 0);
}

/* Texts that are refused, with the kind, the characters and the place of the first error, and what it says. */
static void refused(void) {
    static const struct {
        const char *text;
        uint32_t kind, start, end;
        size_t offset;
        const char *says;
    } rows[] = {
        {"a[b", GLOBSET_UNCLOSED_CLASS, 0, 0, 1, "error parsing glob 'a[b': unclosed character class; missing ']'"},
        {"[z-a]", GLOBSET_INVALID_RANGE, 'z', 'a', 0, "error parsing glob '[z-a]': invalid range; 'z' > 'a'"},
        {"[\xc3\xa9-a]", GLOBSET_INVALID_RANGE, 0xe9, 'a', 0,
         "error parsing glob '[\xc3\xa9-a]': invalid range; '\xc3\xa9' > 'a'"},
        {"a}", GLOBSET_UNOPENED_ALTERNATES, 0, 0, 1,
         "error parsing glob 'a}': unopened alternate group; missing '{' (maybe escape '}' with '[}]'?)"},
        {"{a,b", GLOBSET_UNCLOSED_ALTERNATES, 0, 0, 0,
         "error parsing glob '{a,b': unclosed alternate group; missing '}' (maybe escape '{' with '[{]'?)"},
        {"a\\", GLOBSET_DANGLING_ESCAPE, 0, 0, 1, "error parsing glob 'a\\': dangling '\\'"},
    };
    for (size_t i = 0; i < sizeof rows / sizeof *rows; i++) {
        globset_error error = {77, 78, 79, 80};
        globset_glob *glob = (globset_glob *)&error;
        char buffer[200];
        size_t length = 1000, needed = strlen(rows[i].says);
        CHECK(globset_glob_new(TEXT(rows[i].text), 0, &error, &glob) == GLOBSET_EGLOB && glob == NULL);
        CHECK(error.kind == rows[i].kind && error.start == rows[i].start && error.end == rows[i].end);
        CHECK(error.offset == rows[i].offset);
        memset(buffer, '#', sizeof buffer);
        CHECK(globset_error_text(&error, TEXT(rows[i].text), buffer, needed, &length) == GLOBSET_EBUFFER);
        CHECK(length == needed && buffer[0] == '#' && buffer[needed] == '#');
        CHECK(globset_error_text(&error, TEXT(rows[i].text), NULL, 0, &length) == GLOBSET_EBUFFER && length == needed);
        CHECK(globset_error_text(&error, TEXT(rows[i].text), buffer, needed + 1, &length) == GLOBSET_OK);
        CHECK(length == needed && strcmp(buffer, rows[i].says) == 0 && buffer[needed + 1] == '#');
        CHECK(globset_error_text(&error, TEXT(rows[i].text), buffer, sizeof buffer, NULL) == GLOBSET_OK);
    }
}

/* The other results of a text. */
static void not_read(void) {
    globset_error error = {77, 78, 79, 80};
    globset_glob *glob = (globset_glob *)&error;
    char buffer[8] = "#######";
    size_t length = 1000;
    CHECK(globset_glob_new("\xff", 1, 0, &error, &glob) == GLOBSET_EUTF8 && glob == NULL);
    CHECK(error.kind == 0 && error.start == 0 && error.end == 0 && error.offset == 0);
    CHECK(globset_glob_new("a", 1, 64, &error, &glob) == GLOBSET_EOPTIONS);
    CHECK(globset_glob_new("\xff", 1, UINT32_MAX, NULL, &glob) == GLOBSET_EOPTIONS);
    CHECK(globset_error_text(&error, "a", 1, buffer, 8, &length) == GLOBSET_ENONE && length == 0);
    error.kind = GLOBSET_UNCLOSED_CLASS;
    length = 1000;
    CHECK(globset_error_text(&error, "\xff", 1, buffer, 8, &length) == GLOBSET_EUTF8 && length == 0);
    error.kind = GLOBSET_DANGLING_ESCAPE + 1;
    CHECK(globset_error_text(&error, "a", 1, buffer, 8, NULL) == GLOBSET_ENONE);
    CHECK(memcmp(buffer, "#######", 8) == 0);
}

/* Each option decides one path, which the default decides otherwise. */
static void options(void) {
    static const struct {
        uint32_t bits;
        const char *text, *path;
        int by_default, with;
    } rows[] = {
        {GLOBSET_CASE_INSENSITIVE, "a.C", "A.c", 0, 1},      {GLOBSET_LITERAL_SEPARATOR, "*.c", "a/b.c", 1, 0},
        {GLOBSET_NO_BACKSLASH_ESCAPE, "a\\*", "a\\b", 0, 1}, {GLOBSET_EMPTY_ALTERNATES, "a{,b}", "a", 0, 1},
        {GLOBSET_WHOLE_CHARACTER, "?", "\xc3\xa9", 0, 1},
    };
    globset_glob *glob;
    for (size_t i = 0; i < sizeof rows / sizeof *rows; i++) {
        for (int with = 0; with < 2; with++) {
            uint32_t bits = with ? rows[i].bits : 0;
            globset_matcher *matcher;
            globset_set *set;
            int wanted = with ? rows[i].with : rows[i].by_default;
            glob = glob_of(rows[i].text, bits);
            CHECK(globset_matcher_new(glob, &matcher) == GLOBSET_OK);
            globset_glob_free(glob);
            CHECK(globset_matcher_is_match(matcher, TEXT(rows[i].path)) == wanted);
            globset_matcher_free(matcher);
            CHECK(globset_set_new(&rows[i].text, NULL, &bits, 1, NULL, NULL, &set) == GLOBSET_OK);
            CHECK(globset_set_is_match(set, TEXT(rows[i].path)) == wanted);
            globset_set_free(set);
        }
    }
    CHECK(globset_glob_new("a[*", 3, 0, NULL, &glob) == GLOBSET_EGLOB);
    globset_glob_free(glob_of("a[*", GLOBSET_ALLOW_UNCLOSED_CLASS));
    globset_glob_free(glob_of("x", 63));
}

/* A text and paths with NULs, paths that are not UTF-8, and strings that end in NUL. */
static void bytes(void) {
    globset_glob *glob;
    globset_matcher *matcher;
    CHECK(globset_glob_new("a\0*", 3, 0, NULL, &glob) == GLOBSET_OK);
    CHECK(globset_matcher_new(glob, &matcher) == GLOBSET_OK);
    CHECK(globset_matcher_is_match(matcher, "a\0\0b", 4) == 1);
    CHECK(globset_matcher_is_match(matcher, "a\0\xff", 3) == 1);
    CHECK(globset_matcher_is_match(matcher, "a", 1) == 0);
    globset_glob_free(glob);
    globset_matcher_free(matcher);
    CHECK(globset_glob_new(NULL, 0, 0, NULL, &glob) == GLOBSET_OK);
    CHECK(globset_matcher_new(glob, &matcher) == GLOBSET_OK);
    CHECK(globset_matcher_is_match(matcher, NULL, 0) == 1);
    CHECK(globset_matcher_is_match(matcher, "", GLOBSET_ZERO_TERMINATED) == 1);
    CHECK(globset_matcher_is_match(matcher, "a", 1) == 0);
    globset_glob_free(glob);
    globset_matcher_free(matcher);
    CHECK(globset_glob_new("*.c", GLOBSET_ZERO_TERMINATED, 0, NULL, &glob) == GLOBSET_OK);
    CHECK(globset_matcher_new(glob, &matcher) == GLOBSET_OK);
    CHECK(globset_matcher_is_match(matcher, "a.c\0x", GLOBSET_ZERO_TERMINATED) == 1);
    CHECK(globset_matcher_is_match(matcher, "a.c\0x", 5) == 0);
    globset_glob_free(glob);
    globset_matcher_free(matcher);
}

static void texts(void) {
    static const char regex[] = "(?-u)^.*\\.(?:c|h)$";
    char buffer[64];
    size_t length = 0, needed = strlen(regex);
    globset_glob *glob = glob_of("*.{c,h}", 0);
    memset(buffer, '#', sizeof buffer);
    CHECK(globset_glob_regex(glob, NULL, 0, &length) == GLOBSET_EBUFFER && length == needed);
    length = 0;
    CHECK(globset_glob_regex(glob, buffer, needed, &length) == GLOBSET_EBUFFER && length == needed && buffer[0] == '#');
    CHECK(globset_glob_regex(glob, buffer, needed + 1, &length) == GLOBSET_OK && length == needed);
    CHECK(strcmp(buffer, regex) == 0 && buffer[needed + 1] == '#');
    globset_glob_free(glob);
    memset(buffer, '#', sizeof buffer);
    CHECK(globset_escape("a[1]*", 5, buffer, 3, &length) == GLOBSET_EBUFFER && length == 11 && buffer[0] == '#');
    CHECK(globset_escape("a[1]*", 5, buffer, 12, &length) == GLOBSET_OK && length == 11);
    CHECK(memcmp(buffer, "a[[]1[]][*]\0#", 13) == 0);
    CHECK(globset_escape("\0", 1, buffer, 2, &length) == GLOBSET_OK && length == 1 && buffer[0] == '\0');
    length = 7;
    CHECK(globset_escape(NULL, 0, NULL, 0, &length) == GLOBSET_EBUFFER && length == 0);
    buffer[0] = '#';
    CHECK(globset_escape(NULL, 0, buffer, 1, &length) == GLOBSET_OK && length == 0 && buffer[0] == '\0');
    CHECK(globset_escape("\xff", 1, buffer, 64, &length) == GLOBSET_EUTF8 && length == 0);
}

/* The text and the options of a glob, with each set of options. */
static void parts(void) {
    static const char text[] = "a\xc3\xa9\0*.{c,h}";
    const size_t needed = sizeof text - 1;
    for (uint32_t bits = 0; bits < 64; bits++) {
        globset_glob *glob;
        char buffer[16];
        size_t length = 1000;
        CHECK(globset_glob_new(text, needed, bits, NULL, &glob) == GLOBSET_OK);
        CHECK(globset_glob_options(glob) == bits);
        memset(buffer, '#', sizeof buffer);
        CHECK(globset_glob_text(glob, buffer, needed, &length) == GLOBSET_EBUFFER && length == needed &&
              buffer[0] == '#');
        CHECK(globset_glob_text(glob, buffer, sizeof buffer, &length) == GLOBSET_OK && length == needed);
        CHECK(memcmp(buffer, text, needed + 1) == 0 && buffer[needed + 1] == '#');
        globset_glob_free(glob);
    }
}

/* Sets of many texts, and which text is wrong. */
static void compiled(void) {
    static const char *const globs[] = {"*.c", "src/*", "a\0b", "[z-a]", "{"};
    static const size_t lengths[] = {3, 5, 3, 5, 1};
    static const uint32_t bits[] = {0, GLOBSET_LITERAL_SEPARATOR, 0, 64, 0};
    static const char *const not_utf8[] = {"a", "b", "\xff"};
    globset_error error = {77, 78, 79, 80};
    globset_set *set = (globset_set *)&error;
    size_t index = 99;
    CHECK(globset_set_new(globs, lengths, bits, 3, &error, &index, &set) == GLOBSET_OK);
    CHECK(error.kind == 0 && error.start == 0 && globset_set_length(set) == 3);
    CHECK(globset_set_is_match(set, "a\0b", 3) == 1 && globset_set_is_match(set, "a", 1) == 0);
    CHECK(globset_set_is_match(set, "src/a", 5) == 1 && globset_set_is_match(set, "src/a/b", 7) == 0);
    globset_set_free(set);
    CHECK(globset_set_new(globs, lengths, bits, 5, &error, &index, &set) == GLOBSET_EOPTIONS && index == 3);
    CHECK(set == NULL && error.kind == 0);
    CHECK(globset_set_new(globs, lengths, NULL, 5, &error, &index, &set) == GLOBSET_EGLOB && index == 3);
    CHECK(set == NULL && error.kind == GLOBSET_INVALID_RANGE && error.start == 'z' && error.end == 'a');
    CHECK(globset_set_new(globs + 4, NULL, NULL, 1, &error, &index, &set) == GLOBSET_EGLOB && index == 0);
    CHECK(error.kind == GLOBSET_UNCLOSED_ALTERNATES);
    CHECK(globset_set_new(not_utf8, NULL, NULL, 3, &error, &index, &set) == GLOBSET_EUTF8 && index == 2 && set == NULL);
    CHECK(globset_set_new(NULL, NULL, NULL, 0, NULL, NULL, &set) == GLOBSET_OK && globset_set_length(set) == 0);
    CHECK(globset_set_is_match(set, NULL, 0) == 0);
    globset_set_free(set);
}

/* A builder that is built twice: the globs go into the first set. */
static void builders(void) {
    globset_builder *builder;
    globset_set *first, *second, *third;
    globset_glob *glob = glob_of("*.c", 0);
    CHECK(globset_builder_new(&builder) == GLOBSET_OK);
    CHECK(globset_builder_add(builder, glob) == GLOBSET_OK && globset_builder_add(builder, glob) == GLOBSET_OK);
    CHECK(globset_builder_build(builder, &first) == GLOBSET_OK && globset_set_length(first) == 2);
    CHECK(globset_builder_add(builder, glob) == GLOBSET_OK);
    globset_glob_free(glob);
    CHECK(globset_builder_build(builder, &second) == GLOBSET_OK && globset_set_length(second) == 1);
    CHECK(globset_builder_build(builder, &third) == GLOBSET_OK && globset_set_length(third) == 0);
    globset_builder_free(builder);
    CHECK(globset_set_is_match(second, "a.c", 3) == 1 && globset_set_is_match(third, "a.c", 3) == 0);
    globset_set_free(first);
    globset_set_free(second);
    globset_set_free(third);
}

/* Under each limit of the rows a set answers the same. A builder keeps its limit after a set was made. */
static void limits(void) {
    static const size_t limits[] = {0, 1, 4096, SIZE_MAX};
    globset_glob *glob = glob_of("src/**/*a?[bc]", 0);
    for (size_t i = 0; i < sizeof limits / sizeof *limits; i++) {
        globset_builder *builder;
        CHECK(globset_builder_new(&builder) == GLOBSET_OK && globset_builder_add(builder, glob) == GLOBSET_OK);
        CHECK(globset_builder_set_dfa_size_limit(builder, limits[i]) == GLOBSET_OK);
        for (size_t count = 2; count > 0; count--) {
            globset_set *set;
            globset_searcher *searcher;
            CHECK(globset_builder_add(builder, glob) == GLOBSET_OK);
            CHECK(globset_builder_build(builder, &set) == GLOBSET_OK && globset_set_length(set) == count);
            CHECK(globset_searcher_new(set, &searcher) == GLOBSET_OK);
            CHECK(globset_searcher_is_match(searcher, TEXT("src/x/axb")) == 1);
            CHECK(globset_searcher_is_match(searcher, TEXT("src/x/ab")) == 0);
            globset_searcher_free(searcher);
            globset_set_free(set);
        }
        globset_builder_free(builder);
    }
    globset_glob_free(glob);
}

/* Searchers keep what they need after their sets were freed. */
static void searchers(void) {
    static const char *const globs[] = {"*.c", "src/*", "**/..", "*a*b*"};
    static const size_t three[] = {0, 1, 3}, one[] = {1};
    globset_searcher *searcher = searcher_of(globs, 4), *empty = searcher_of(globs, 0), *some = searcher_of(globs, 2);
    CHECK(globset_searcher_is_match(empty, TEXT("a.c")) == 0);
    CHECK(globset_searcher_matches_all(empty, TEXT("a.c")) == 1);
    CHECK(globset_searcher_can_match_below(empty, TEXT("a")) == 0);
    CHECK(finds(empty, "a.c", NULL, 0));
    CHECK(globset_searcher_is_match(searcher, TEXT("a.c")) == 1);
    CHECK(globset_searcher_is_match(searcher, TEXT("x/..")) == 0);
    CHECK(globset_searcher_matches_all(searcher, TEXT("src/ab.c")) == 0);
    CHECK(globset_searcher_matches_all(some, TEXT("src/x.c")) == 1);
    CHECK(globset_searcher_matches_all(some, TEXT("x.c")) == 0);
    CHECK(finds(searcher, "src/ab.c", three, 3) && finds(some, "src/ab", one, 1) && finds(searcher, "x", NULL, 0));
    CHECK(finds(searcher, "", NULL, 0));
    globset_searcher_free(searcher);
    globset_searcher_free(empty);
    globset_searcher_free(some);
}

/* A searcher of a set and a matcher differ in one glob, which a set leaves out. */
static void excluded(void) {
    static const char *const text = "**/..";
    globset_glob *glob = glob_of(text, 0);
    globset_matcher *matcher;
    globset_searcher *searcher = searcher_of(&text, 1);
    CHECK(globset_matcher_new(glob, &matcher) == GLOBSET_OK);
    CHECK(globset_matcher_is_match(matcher, TEXT("x/..")) == 1);
    CHECK(globset_searcher_is_match(searcher, TEXT("x/..")) == 0);
    globset_glob_free(glob);
    globset_matcher_free(matcher);
    globset_searcher_free(searcher);
}

/* Whether a path below a folder can match. */
static void folders(void) {
    static const char *const globs[] = {"src/**", "doc/*.txt"};
    globset_searcher *searcher = searcher_of(globs, 2);
    CHECK(globset_searcher_can_match_below(searcher, TEXT("src")) == 1);
    CHECK(globset_searcher_can_match_below(searcher, TEXT("src/a/b")) == 1);
    CHECK(globset_searcher_can_match_below(searcher, TEXT("doc")) == 1);
    CHECK(globset_searcher_can_match_below(searcher, TEXT("target")) == 0);
    globset_searcher_free(searcher);
}

static void many(void) {
    static const char *const globs[] = {"*.c", "*a*b*"};
    static const char paths[] = "x.cx.hab\xff.c#";
    static const size_t ends[] = {3, 6, 6, 8, 11}, descending[] = {3, 2};
    static const uint8_t wanted[] = {1, 0, 0, 1, 1};
    uint8_t answers[5];
    globset_searcher *searcher = searcher_of(globs, 2);
    memset(answers, 7, 5);
    CHECK(globset_searcher_is_match_many(searcher, paths, 10, ends, 5, answers) == GLOBSET_EOFFSETS);
    CHECK(globset_searcher_is_match_many(searcher, paths, 11, descending, 2, answers) == GLOBSET_EOFFSETS);
    CHECK(globset_searcher_is_match_many(searcher, NULL, 0, ends, 1, answers) == GLOBSET_EOFFSETS);
    CHECK(answers[0] == 7 && answers[1] == 7 && answers[4] == 7);
    CHECK(globset_searcher_is_match_many(searcher, paths, 11, ends, 5, answers) == GLOBSET_OK);
    CHECK(memcmp(answers, wanted, 5) == 0);
    CHECK(globset_searcher_is_match_many(searcher, NULL, 0, NULL, 0, NULL) == GLOBSET_OK);
    globset_searcher_free(searcher);
}

/* The indexes of many paths in one list. */
static void indexes_of_many(void) {
    static const char *const globs[] = {"*.c", "src/*", "**/..", "*a*b*"};
    static const char paths[] = "a.csrc/ab.cxsrc/h#";
    static const size_t ends[] = {3, 11, 11, 12, 17}, descending[] = {3, 2};
    static const size_t wanted[] = {0, 0, 1, 3, 1}, wanted_ends[] = {1, 4, 4, 4, 5};
    globset_searcher *searcher = searcher_of(globs, 4), *empty = searcher_of(globs, 0);
    size_t indexes[8] = {7, 7, 7, 7, 7, 7, 7, 7}, index_ends[5] = {7, 7, 7, 7, 7}, count = 1000;
    CHECK(globset_searcher_find_many(searcher, paths, 16, ends, 5, index_ends, indexes, 8, &count) == GLOBSET_EOFFSETS);
    CHECK(count == 0);
    CHECK(globset_searcher_find_many(searcher, paths, 17, descending, 2, index_ends, indexes, 8, &count) ==
          GLOBSET_EOFFSETS);
    CHECK(globset_searcher_find_many(searcher, paths, 17, ends, 5, index_ends, NULL, 0, &count) == GLOBSET_EBUFFER);
    CHECK(count == 5);
    CHECK(globset_searcher_find_many(searcher, paths, 17, ends, 5, index_ends, indexes, 4, &count) == GLOBSET_EBUFFER);
    CHECK(count == 5 && indexes[0] == 7 && indexes[3] == 7 && index_ends[0] == 7 && index_ends[4] == 7);
    CHECK(globset_searcher_find_many(searcher, paths, 17, ends, 5, index_ends, indexes, 8, &count) == GLOBSET_OK);
    CHECK(count == 5 && memcmp(indexes, wanted, sizeof wanted) == 0 && indexes[5] == 7 && indexes[7] == 7);
    CHECK(memcmp(index_ends, wanted_ends, sizeof wanted_ends) == 0);
    CHECK(globset_searcher_find_many(searcher, NULL, 0, NULL, 0, NULL, NULL, 0, &count) == GLOBSET_OK && count == 0);
    CHECK(globset_searcher_find_many(empty, paths, 17, ends, 5, index_ends, NULL, 0, &count) == GLOBSET_OK);
    CHECK(count == 0 && index_ends[0] == 0 && index_ends[4] == 0);
    globset_searcher_free(searcher);
    globset_searcher_free(empty);
}

/* A hundred globs for which a searcher keeps rows of an automaton: it answers as the set does, whatever came before. */
static void many_globs(void) {
    enum { GLOBS = 100, PATHS = 500 };
    static char texts[GLOBS][32];
    static const char *globs[GLOBS];
    uint32_t seed = 1;
    size_t all = 0;
    for (int i = 0; i < GLOBS; i++) {
        snprintf(texts[i], sizeof texts[i], "*%c*%c*%c*", 'a' + i % 26, 'a' + i / 4, 'a' + i % 7);
        globs[i] = texts[i];
    }
    globset_set *set = set_of(globs, GLOBS);
    globset_searcher *searcher = searcher_of(globs, GLOBS);
    for (int i = 0; i < PATHS; i++) {
        char path[40];
        const size_t *indexes;
        size_t length = (size_t)i % sizeof path, count;
        for (size_t k = 0; k < length; k++) path[k] = (char)('a' + (seed = seed * 1664525 + 1013904223) / 65536 % 26);
        CHECK(globset_searcher_find(searcher, path, length, &indexes, &count) == GLOBSET_OK);
        for (size_t k = 1; k < count; k++) CHECK(indexes[k - 1] < indexes[k]);
        CHECK(count == 0 || indexes[count - 1] < GLOBS);
        CHECK(globset_searcher_is_match(searcher, path, length) == (count > 0));
        CHECK(globset_set_is_match(set, path, length) == (count > 0));
        all += count;
    }
    CHECK(all > PATHS);
    globset_searcher_free(searcher);
    globset_set_free(set);
}

int main(void) {
    versions();
    refused();
    not_read();
    options();
    bytes();
    texts();
    parts();
    compiled();
    builders();
    limits();
    searchers();
    excluded();
    folders();
    many();
    indexes_of_many();
    many_globs();
    puts("calls: passed");
    return 0;
}
