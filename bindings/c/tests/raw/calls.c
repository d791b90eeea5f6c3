/* Each call once or more, on each kind of object, with each status that it has. memory.c is for
 * GLOBSET_OUT_OF_MEMORY. */
#include "raw.h"

static void versions(void) {
    CHECK(globset_version() == GLOBSET_VERSION && GLOBSET_VERSION == 4021);
    CHECK(globset_interface() == GLOBSET_INTERFACE);
}

/* Texts that are refused, with the kind, the characters and the place of the first error, and what it says. */
static void refused(void) {
    static const struct {
        const char *text;
        uint32_t kind, start, end;
        size_t offset;
        const char *says;
    } rows[] = {
        {"a[b", GLOBSET_UNCLOSED_CLASS, 0, 0, 1, "error parsing glob 'a[b': unclosed character class; missing ']'"},
        {"[z-a]", GLOBSET_INVALID_RANGE, 'z', 'a', 0, "error parsing glob '[z-a]': invalid range; 'z' > 'a'"},
        {"[\xc3\xa9-a]", GLOBSET_INVALID_RANGE, 0xe9, 'a', 0,
         "error parsing glob '[\xc3\xa9-a]': invalid range; '\xc3\xa9' > 'a'"},
        {"\xc3\xa9[z-a][y-b]", GLOBSET_INVALID_RANGE, 'z', 'a', 2,
         "error parsing glob '\xc3\xa9[z-a][y-b]': invalid range; 'z' > 'a'"},
        {"a}", GLOBSET_UNOPENED_ALTERNATES, 0, 0, 1,
         "error parsing glob 'a}': unopened alternate group; missing '{' (maybe escape '}' with '[}]'?)"},
        {"{a,b", GLOBSET_UNCLOSED_ALTERNATES, 0, 0, 0,
         "error parsing glob '{a,b': unclosed alternate group; missing '}' (maybe escape '{' with '[{]'?)"},
        {"\xc3\xa9/{*.c,*.{h,hpp}", GLOBSET_UNCLOSED_ALTERNATES, 0, 0, 3,
         "error parsing glob '\xc3\xa9/{*.c,*.{h,hpp}': unclosed alternate group; missing '}' (maybe escape '{' with "
         "'[{]'?)"},
        {"a\\", GLOBSET_DANGLING_ESCAPE, 0, 0, 1, "error parsing glob 'a\\': dangling '\\'"},
    };
    for (size_t i = 0; i < sizeof rows / sizeof *rows; i++) {
        globset_error error = {77, 78, 79, 80};
        raw_glob glob = {{&error}};
        char room[200];
        size_t needed = 1000;
        CHECK(raw_glob_new(TEXT(rows[i].text), 0, &error, &glob) == GLOBSET_REJECTED);
        CHECK(error.kind == rows[i].kind && error.start == rows[i].start && error.end == rows[i].end);
        CHECK(error.offset == rows[i].offset);
        CHECK(glob.object.at == &error);
        memset(room, '#', sizeof room);
        CHECK(raw_error_text(&error, TEXT(rows[i].text), room, sizeof room, &needed) == GLOBSET_DONE);
        CHECK(needed == strlen(rows[i].says) && memcmp(room, rows[i].says, needed) == 0 && room[needed] == '#');
        needed = 1000;
        CHECK(raw_error_text(&error, TEXT(rows[i].text), NULL, 0, &needed) == GLOBSET_TOO_SMALL);
        CHECK(needed == strlen(rows[i].says));
    }
}

/* The other statuses of a text: each leaves what was there. */
static void not_read(void) {
    globset_error error = {77, 78, 79, 80};
    raw_glob glob = {{&error}};
    char room[8] = "#######";
    size_t needed = 1000;
    CHECK(raw_glob_new("\xff", 1, 0, &error, &glob) == GLOBSET_NOT_UTF8);
    CHECK(raw_glob_new("a", 1, 64, &error, &glob) == GLOBSET_UNKNOWN_OPTION);
    CHECK(raw_glob_new("\xff", 1, UINT32_MAX, &error, &glob) == GLOBSET_UNKNOWN_OPTION);
    CHECK(raw_glob_new("[", 1, 64, &error, &glob) == GLOBSET_UNKNOWN_OPTION);
    CHECK(raw_glob_new("[\xff", 2, 0, &error, &glob) == GLOBSET_NOT_UTF8);
    CHECK(error.kind == 77 && error.start == 78 && error.end == 79 && error.offset == 80 && glob.object.at == &error);
    CHECK(raw_escape("[\xff", 2, room, 8, &needed) == GLOBSET_NOT_UTF8);
    CHECK(memcmp(room, "#######", 8) == 0 && needed == 1000);
}

/* Errors of which nothing is said: no error is told by such numbers, or the text is not UTF-8. */
static void nothing_said(void) {
    static const struct {
        globset_error error;
        const char *text;
        globset_status status;
    } rows[] = {
        {{0, 0, 0, 0}, "a", GLOBSET_NO},
        {{6, 0, 0, 0}, "a", GLOBSET_NO},
        {{UINT32_MAX, 0, 0, 0}, "\xff", GLOBSET_NO},
        {{GLOBSET_INVALID_RANGE, 0xd800, 'a', 0}, "a", GLOBSET_NO},
        {{GLOBSET_INVALID_RANGE, 'z', 0x110000, 0}, "a", GLOBSET_NO},
        {{GLOBSET_UNCLOSED_CLASS, 0, 0, 0}, "\xff", GLOBSET_NOT_UTF8},
    };
    for (size_t i = 0; i < sizeof rows / sizeof *rows; i++) {
        char room[8] = "#######";
        size_t needed = 1000;
        CHECK(raw_error_text(&rows[i].error, TEXT(rows[i].text), room, 8, &needed) == rows[i].status);
        CHECK(memcmp(room, "#######", 8) == 0 && needed == 1000);
    }
}

/* Frees the glob and its matcher. */
static raw_matcher_searcher matcher_searcher_of(raw_glob glob) {
    raw_matcher matcher;
    raw_matcher_searcher searcher;
    CHECK(raw_matcher_new(glob, &matcher) == GLOBSET_DONE);
    raw_glob_free(glob);
    CHECK(raw_matcher_searcher_new(matcher, &searcher) == GLOBSET_DONE);
    raw_matcher_free(matcher);
    return searcher;
}

/* Each option decides one path, which the default decides otherwise. */
static void options(void) {
    static const struct {
        uint32_t bits;
        const char *text, *path;
        int by_default, with;
    } rows[] = {
        {GLOBSET_CASE_INSENSITIVE, "a.C", "A.c", 0, 1},      {GLOBSET_LITERAL_SEPARATOR, "*.c", "a/b.c", 1, 0},
        {GLOBSET_NO_BACKSLASH_ESCAPE, "a\\*", "a\\b", 0, 1}, {GLOBSET_EMPTY_ALTERNATES, "a{,b}", "a", 0, 1},
        {GLOBSET_WHOLE_CHARACTER, "?", "\xc3\xa9", 0, 1},
    };
    for (size_t i = 0; i < sizeof rows / sizeof *rows; i++) {
        for (int with = 0; with < 2; with++) {
            raw_glob glob = glob_of(rows[i].text, with ? rows[i].bits : 0);
            raw_matcher_searcher searcher = matcher_searcher_of(glob);
            int wanted = with ? rows[i].with : rows[i].by_default;
            CHECK(raw_matcher_searcher_is_match(&searcher, TEXT(rows[i].path)) == (wanted ? GLOBSET_YES : GLOBSET_NO));
            raw_matcher_searcher_free(searcher);
        }
    }
    globset_error error;
    raw_glob glob = glob_of("a[*", GLOBSET_ALLOW_UNCLOSED_CLASS), none;
    CHECK(raw_glob_new("a[*", 3, 0, &error, &none) == GLOBSET_REJECTED);
    raw_glob_free(glob);
    glob = glob_of("x", 63);
    raw_glob_free(glob);
}

/* A text and paths with NULs, and paths that are not UTF-8. */
static void bytes(void) {
    globset_error error;
    raw_glob glob;
    CHECK(raw_glob_new("a\0*", 3, 0, &error, &glob) == GLOBSET_DONE);
    raw_matcher_searcher searcher = matcher_searcher_of(glob);
    CHECK(raw_matcher_searcher_is_match(&searcher, "a\0\0b", 4) == GLOBSET_YES);
    CHECK(raw_matcher_searcher_is_match(&searcher, "a\0\xff", 3) == GLOBSET_YES);
    CHECK(raw_matcher_searcher_is_match(&searcher, "a", 1) == GLOBSET_NO);
    raw_matcher_searcher_free(searcher);
    CHECK(raw_glob_new(NULL, 0, 0, &error, &glob) == GLOBSET_DONE);
    searcher = matcher_searcher_of(glob);
    CHECK(raw_matcher_searcher_is_match(&searcher, NULL, 0) == GLOBSET_YES);
    CHECK(raw_matcher_searcher_is_match(&searcher, "a", 1) == GLOBSET_NO);
    raw_matcher_searcher_free(searcher);
}

static void texts(void) {
    char room[64];
    size_t needed = 0;
    raw_glob glob = glob_of("*.{c,h}", 0);
    static const char regex[] = "(?-u)^.*\\.(?:c|h)$";
    memset(room, '#', sizeof room);
    CHECK(raw_glob_regex(glob, room, sizeof room, &needed) == GLOBSET_DONE);
    CHECK(needed == strlen(regex) && memcmp(room, regex, needed) == 0 && room[needed] == '#');
    CHECK(raw_glob_regex(glob, room, needed, &needed) == GLOBSET_DONE);
    CHECK(raw_glob_regex(glob, NULL, 0, &needed) == GLOBSET_TOO_SMALL && needed == strlen(regex));
    raw_glob_free(glob);
    memset(room, '#', sizeof room);
    CHECK(raw_escape("a[1]*", 5, room, 3, &needed) == GLOBSET_TOO_SMALL && needed == 11 && room[0] == '#');
    CHECK(raw_escape("a[1]*", 5, room, 11, &needed) == GLOBSET_DONE && needed == 11);
    CHECK(memcmp(room, "a[[]1[]][*]#", 12) == 0);
    CHECK(raw_escape("\0", 1, room, 1, &needed) == GLOBSET_DONE && needed == 1 && room[0] == '\0');
    CHECK(raw_escape(NULL, 0, NULL, 0, &needed) == GLOBSET_DONE && needed == 0);
    CHECK(raw_escape("\xff", 1, room, 64, &needed) == GLOBSET_NOT_UTF8);
}

/* The text and the options of a glob, with each set of options. */
static void parts(void) {
    for (uint32_t options = 0; options < 64; options++) {
        static const char text[] = "a\xc3\xa9\0*.{c,h}";
        const size_t len = sizeof text - 1;
        globset_error error;
        raw_glob glob;
        char room[16];
        size_t needed = 1000;
        CHECK(raw_glob_new(text, len, options, &error, &glob) == GLOBSET_DONE);
        CHECK(raw_glob_options(glob) == options);
        memset(room, '#', sizeof room);
        CHECK(raw_glob_text(glob, room, len - 1, &needed) == GLOBSET_TOO_SMALL && needed == len && room[0] == '#');
        CHECK(raw_glob_text(glob, NULL, 0, &needed) == GLOBSET_TOO_SMALL && needed == len);
        CHECK(raw_glob_text(glob, room, sizeof room, &needed) == GLOBSET_DONE && needed == len);
        CHECK(memcmp(room, text, len) == 0 && room[len] == '#');
        raw_glob_free(glob);
    }
    raw_glob empty = glob_of("", GLOBSET_CASE_INSENSITIVE);
    size_t needed = 1000;
    CHECK(raw_glob_text(empty, NULL, 0, &needed) == GLOBSET_DONE && needed == 0);
    raw_glob_free(empty);
}

/* How many globs there are in a set. */
static void sets(void) {
    static const char *const globs[] = {"*.c", "src/*", "**/..", "*a*b*"};
    raw_set set = set_of(globs, 4), empty = set_of(globs, 0);
    CHECK(raw_set_len(set) == 4 && raw_set_len(empty) == 0);
    raw_set_free(set);
    raw_set_free(empty);
}

/* Sets of arrays of globs, one of which is there twice. The globs are freed before the set is asked. */
static void sets_of_globs(void) {
    raw_glob globs[4] = {glob_of("*.c", 0), glob_of("SRC/*", GLOBSET_CASE_INSENSITIVE), glob_of("**/..", 0), {{NULL}}};
    raw_set set, empty, one;
    raw_searcher searcher, of_empty, of_one;
    globset_indexes found;
    globs[3] = globs[0];
    CHECK(raw_set_of_globs(globs, 4, &set) == GLOBSET_DONE && raw_set_len(set) == 4);
    CHECK(raw_set_of_globs(globs, 0, &empty) == GLOBSET_DONE && raw_set_len(empty) == 0);
    CHECK(raw_set_of_globs(&globs[1], 1, &one) == GLOBSET_DONE && raw_set_len(one) == 1);
    CHECK(raw_glob_options(globs[1]) == GLOBSET_CASE_INSENSITIVE);
    for (int i = 0; i < 3; i++) raw_glob_free(globs[i]);
    CHECK(raw_searcher_new(set, &searcher) == GLOBSET_DONE && raw_searcher_new(empty, &of_empty) == GLOBSET_DONE);
    CHECK(raw_searcher_new(one, &of_one) == GLOBSET_DONE);
    CHECK(raw_searcher_matches(&searcher, TEXT("src/x.c"), &found) == GLOBSET_DONE);
    CHECK(found.count == 3 && found.at[0] == 0 && found.at[1] == 1 && found.at[2] == 3);
    CHECK(raw_searcher_is_match(&searcher, TEXT("x/..")) == GLOBSET_NO);
    CHECK(raw_searcher_is_match(&of_empty, TEXT("x.c")) == GLOBSET_NO);
    CHECK(raw_searcher_is_match(&of_one, TEXT("Src/x")) == GLOBSET_YES);
    raw_searcher_free(searcher);
    raw_searcher_free(of_empty);
    raw_searcher_free(of_one);
    raw_set_free(set);
    raw_set_free(empty);
    raw_set_free(one);
}

/* A builder that is built twice: the globs go into the first set. */
static void builders(void) {
    raw_builder builder;
    raw_set first, second;
    raw_glob glob = glob_of("*.c", 0);
    CHECK(raw_builder_new(&builder) == GLOBSET_DONE);
    CHECK(raw_builder_add(&builder, glob) == GLOBSET_DONE && raw_builder_add(&builder, glob) == GLOBSET_DONE);
    CHECK(raw_builder_build(&builder, &first) == GLOBSET_DONE && raw_set_len(first) == 2);
    CHECK(raw_builder_add(&builder, glob) == GLOBSET_DONE);
    CHECK(raw_builder_build(&builder, &second) == GLOBSET_DONE && raw_set_len(second) == 1);
    raw_glob_free(glob);
    raw_builder_free(builder);
    raw_set_free(first);
    raw_set_free(second);
}

/* Under each limit of the rows a set answers the same. A builder keeps its limit after a set was made. */
static void limits(void) {
    static const size_t limits[] = {0, 1, 4096, SIZE_MAX};
    for (size_t i = 0; i < sizeof limits / sizeof *limits; i++) {
        raw_builder builder;
        raw_glob glob = glob_of("src/**/*a?[bc]", 0);
        CHECK(raw_builder_new(&builder) == GLOBSET_DONE && raw_builder_add(&builder, glob) == GLOBSET_DONE);
        raw_builder_set_dfa_size_limit(&builder, limits[i]);
        for (int again = 0; again < 2; again++) {
            raw_set set;
            raw_searcher searcher;
            CHECK(raw_builder_add(&builder, glob) == GLOBSET_DONE);
            CHECK(raw_builder_build(&builder, &set) == GLOBSET_DONE && raw_set_len(set) == (again ? 1 : 2));
            CHECK(raw_searcher_new(set, &searcher) == GLOBSET_DONE);
            CHECK(raw_searcher_is_match(&searcher, TEXT("src/x/axb")) == GLOBSET_YES);
            CHECK(raw_searcher_is_match(&searcher, TEXT("src/x/ab")) == GLOBSET_NO);
            raw_searcher_free(searcher);
            raw_set_free(set);
        }
        raw_glob_free(glob);
        raw_builder_free(builder);
    }
}

/* No call changes the address in the handle of a builder or a searcher, which globset.c relies on. */
static void addresses(void) {
    static const char *const globs[] = {"*.c"};
    static const size_t end = 3;
    raw_glob glob = glob_of("*.c", 0);
    raw_set set = set_of(globs, 1), built;
    raw_builder builder;
    raw_searcher searcher;
    globset_indexes found;
    uint8_t answer = 0;
    CHECK(raw_builder_new(&builder) == GLOBSET_DONE && raw_searcher_new(set, &searcher) == GLOBSET_DONE);
    const void *builder_at = builder.object.at, *searcher_at = searcher.object.at;
    CHECK(raw_builder_add(&builder, glob) == GLOBSET_DONE && builder.object.at == builder_at);
    CHECK(globset_raw_builder_set_dfa_size_limit(&builder.object, 0) == GLOBSET_DONE &&
          builder.object.at == builder_at);
    CHECK(raw_builder_build(&builder, &built) == GLOBSET_DONE && builder.object.at == builder_at);
    CHECK(raw_searcher_is_match(&searcher, TEXT("a.c")) == GLOBSET_YES && searcher.object.at == searcher_at);
    CHECK(raw_searcher_matches_all(&searcher, TEXT("a.c")) == GLOBSET_YES && searcher.object.at == searcher_at);
    CHECK(raw_searcher_can_match_below(&searcher, TEXT("a")) == GLOBSET_YES && searcher.object.at == searcher_at);
    CHECK(raw_searcher_matches(&searcher, TEXT("a.c"), &found) == GLOBSET_DONE && searcher.object.at == searcher_at);
    CHECK(raw_searcher_is_match_many(&searcher, TEXT("a.c"), &end, &answer, 1) == GLOBSET_DONE);
    CHECK(answer == 1 && searcher.object.at == searcher_at);
    size_t index_end = 0, index = 1, needed = 0;
    CHECK(raw_searcher_matches_many(&searcher, TEXT("a.c"), &end, &index_end, 1, &index, 1, &needed) == GLOBSET_DONE);
    CHECK(index_end == 1 && index == 0 && needed == 1 && searcher.object.at == searcher_at);
    raw_glob_free(glob);
    raw_builder_free(builder);
    raw_searcher_free(searcher);
    raw_set_free(set);
    raw_set_free(built);
}

static void many(void) {
    static const char *const globs[] = {"*.c", "*a*b*"};
    raw_set set = set_of(globs, 2);
    raw_searcher searcher;
    uint8_t answers[5];
    static const char paths[] = "x.cx.hab\xff.c#";
    static const size_t ends[] = {3, 6, 6, 8, 11};
    static const uint8_t wanted[] = {1, 0, 0, 1, 1};
    static const size_t descending[] = {3, 2};
    memset(answers, 7, 5);
    CHECK(raw_searcher_new(set, &searcher) == GLOBSET_DONE);
    CHECK(raw_searcher_is_match_many(&searcher, paths, 10, ends, answers, 5) == GLOBSET_BAD_ENDS);
    CHECK(raw_searcher_is_match_many(&searcher, paths, 11, descending, answers, 2) == GLOBSET_BAD_ENDS);
    CHECK(globset_raw_searcher_is_match_many(&searcher.object, (const uint8_t *)paths, 11, ends, 5, answers, 4) ==
          GLOBSET_BAD_ENDS);
    CHECK(answers[0] == 7 && answers[1] == 7 && answers[4] == 7);
    CHECK(raw_searcher_is_match_many(&searcher, paths, 11, ends, answers, 5) == GLOBSET_DONE);
    CHECK(memcmp(answers, wanted, 5) == 0);
    CHECK(raw_searcher_is_match_many(&searcher, NULL, 0, NULL, NULL, 0) == GLOBSET_DONE);
    raw_searcher_free(searcher);
    raw_set_free(set);
}

/* The indexes of many paths in one list. */
static void indexes_of_many(void) {
    static const char *const globs[] = {"*.c", "src/*", "**/..", "*a*b*"};
    static const char paths[] = "a.csrc/ab.cxsrc/h#";
    static const size_t ends[] = {3, 11, 11, 12, 17}, descending[] = {3, 2};
    static const size_t wanted[] = {0, 0, 1, 3, 1}, wanted_ends[] = {1, 4, 4, 4, 5};
    raw_set set = set_of(globs, 4), empty = set_of(globs, 0);
    raw_searcher searcher, of_empty;
    globset_indexes found;
    size_t room[8], index_ends[5], needed = 1000;
    CHECK(raw_searcher_new(set, &searcher) == GLOBSET_DONE && raw_searcher_new(empty, &of_empty) == GLOBSET_DONE);
    CHECK(raw_searcher_matches(&searcher, TEXT("x.c"), &found) == GLOBSET_DONE && found.count == 1);
    memset(room, 7, sizeof room);
    memset(index_ends, 7, sizeof index_ends);
    const size_t sevens = room[0];
    /* Refused: all is as it was. */
    CHECK(raw_searcher_matches_many(&searcher, paths, 16, ends, index_ends, 5, room, 8, &needed) == GLOBSET_BAD_ENDS);
    CHECK(raw_searcher_matches_many(&searcher, paths, 17, descending, index_ends, 2, room, 8, &needed) ==
          GLOBSET_BAD_ENDS);
    CHECK(globset_raw_searcher_matches_many(&searcher.object, (const uint8_t *)paths, 17, ends, 5, index_ends, 4, room,
                                            8, &needed) == GLOBSET_BAD_ENDS);
    CHECK(needed == 1000 && room[0] == sevens && index_ends[0] == sevens && index_ends[4] == sevens);
    CHECK(raw_searcher_found(&searcher, &found) == GLOBSET_DONE && found.count == 1 && found.at[0] == 0);
    /* Too little room, and then enough. */
    CHECK(raw_searcher_matches_many(&searcher, paths, 17, ends, index_ends, 5, room, 4, &needed) == GLOBSET_TOO_SMALL);
    CHECK(needed == 5 && room[0] == sevens && room[3] == sevens && index_ends[0] == sevens && index_ends[4] == sevens);
    CHECK(raw_searcher_found(&searcher, &found) == GLOBSET_DONE && found.count == 1 && found.at[0] == 1);
    CHECK(raw_searcher_matches_many(&searcher, paths, 17, ends, index_ends, 5, NULL, 0, &needed) == GLOBSET_TOO_SMALL);
    CHECK(raw_searcher_matches_many(&searcher, paths, 17, ends, index_ends, 5, room, 8, &needed) == GLOBSET_DONE);
    CHECK(needed == 5 && memcmp(room, wanted, sizeof wanted) == 0 && room[5] == sevens && room[7] == sevens);
    CHECK(memcmp(index_ends, wanted_ends, sizeof wanted_ends) == 0);
    CHECK(raw_searcher_found(&searcher, &found) == GLOBSET_DONE && found.count == 1 && found.at[0] == 1);
    /* No paths, and no globs. */
    CHECK(raw_searcher_matches_many(&searcher, NULL, 0, NULL, NULL, 0, NULL, 0, &needed) == GLOBSET_DONE &&
          needed == 0);
    CHECK(raw_searcher_found(&searcher, &found) == GLOBSET_DONE && found.count == 1);
    CHECK(raw_searcher_matches_many(&of_empty, paths, 17, ends, index_ends, 5, NULL, 0, &needed) == GLOBSET_DONE);
    CHECK(needed == 0 && index_ends[0] == 0 && index_ends[4] == 0);
    raw_searcher_free(searcher);
    raw_searcher_free(of_empty);
    raw_set_free(set);
    raw_set_free(empty);
}

/* Searchers answer as their sets do, also after these were freed, and keep what they found until they find again. */
static void searchers(void) {
    static const char *const globs[] = {"*.c", "src/*", "**/..", "*a*b*"};
    raw_set set = set_of(globs, 4), empty = set_of(globs, 0), some = set_of(globs, 2);
    raw_searcher searcher, of_empty, of_some;
    globset_indexes found, again;
    size_t count = 9;
    CHECK(raw_searcher_new(set, &searcher) == GLOBSET_DONE && raw_searcher_new(empty, &of_empty) == GLOBSET_DONE);
    CHECK(raw_searcher_new(some, &of_some) == GLOBSET_DONE);
    raw_set_free(set);
    raw_set_free(empty);
    CHECK(raw_searcher_found(&searcher, &found) == GLOBSET_DONE && found.count == 0);
    CHECK(raw_searcher_is_match(&of_empty, TEXT("a.c")) == GLOBSET_NO);
    CHECK(raw_searcher_matches_all(&of_empty, TEXT("a.c")) == GLOBSET_YES);
    CHECK(raw_searcher_can_match_below(&of_empty, TEXT("a")) == GLOBSET_NO);
    CHECK(raw_searcher_find(&of_empty, TEXT("a.c"), &count) == GLOBSET_DONE && count == 0);
    CHECK(raw_searcher_is_match(&searcher, TEXT("a.c")) == GLOBSET_YES);
    CHECK(raw_searcher_is_match(&searcher, TEXT("x/..")) == GLOBSET_NO);
    CHECK(raw_searcher_matches_all(&searcher, TEXT("src/ab.c")) == GLOBSET_NO);
    CHECK(raw_searcher_matches_all(&of_some, TEXT("src/x.c")) == GLOBSET_YES);
    CHECK(raw_searcher_matches_all(&of_some, TEXT("x.c")) == GLOBSET_NO);
    CHECK(raw_searcher_find(&searcher, TEXT("src/ab.c"), &count) == GLOBSET_DONE && count == 3);
    CHECK(raw_searcher_is_match(&searcher, TEXT("x")) == GLOBSET_NO);
    CHECK(raw_searcher_found(&searcher, &found) == GLOBSET_DONE);
    CHECK(found.count == 3 && found.at[0] == 0 && found.at[1] == 1 && found.at[2] == 3);
    CHECK(raw_searcher_found(&searcher, &again) == GLOBSET_DONE && again.count == 3 && again.at[2] == 3);
    CHECK(raw_searcher_matches(&of_some, TEXT("src/ab"), &found) == GLOBSET_DONE && found.count == 1 &&
          found.at[0] == 1);
    CHECK(raw_searcher_matches(&searcher, NULL, 0, &found) == GLOBSET_DONE && found.count == 0);
    raw_searcher_free(searcher);
    raw_searcher_free(of_empty);
    CHECK(raw_set_len(some) == 2);
    raw_set_free(some);
    raw_searcher_free(of_some);
}

/* Whether a path below a folder can match. */
static void folders(void) {
    static const char *const globs[] = {"src/**", "doc/*.txt"};
    raw_set set = set_of(globs, 2);
    raw_searcher searcher;
    CHECK(raw_searcher_new(set, &searcher) == GLOBSET_DONE);
    CHECK(raw_searcher_can_match_below(&searcher, TEXT("src")) == GLOBSET_YES);
    CHECK(raw_searcher_can_match_below(&searcher, TEXT("src/a/b")) == GLOBSET_YES);
    CHECK(raw_searcher_can_match_below(&searcher, TEXT("doc")) == GLOBSET_YES);
    CHECK(raw_searcher_can_match_below(&searcher, TEXT("target")) == GLOBSET_NO);
    raw_searcher_free(searcher);
    raw_set_free(set);
}

/* A hundred globs for which a searcher keeps rows of an automaton: it answers as the set does, whatever came before. */
static void many_globs(void) {
    enum { GLOBS = 100, PATHS = 500 };
    static char texts[GLOBS][32];
    static const char *globs[GLOBS];
    for (int i = 0; i < GLOBS; i++) {
        snprintf(texts[i], sizeof texts[i], "*%c*%c*%c*", 'a' + i % 26, 'a' + i / 4, 'a' + i % 7);
        globs[i] = texts[i];
    }
    raw_set set = set_of(globs, GLOBS);
    raw_searcher searcher;
    globset_lent lent = raw_lend(set.object);
    globset_indexes found;
    uint32_t seed = 1;
    size_t by_set[GLOBS], count = 0, all = 0;
    CHECK(raw_searcher_new(set, &searcher) == GLOBSET_DONE);
    for (int i = 0; i < PATHS; i++) {
        char path[40];
        size_t len = (size_t)i % sizeof path;
        for (size_t k = 0; k < len; k++) path[k] = (char)('a' + (seed = seed * 1664525 + 1013904223) / 65536 % 26);
        CHECK(globset_raw_set_matches_plain(&lent, raw_bytes(path), len, by_set, GLOBS, &count) == GLOBSET_DONE);
        CHECK(raw_searcher_matches(&searcher, path, len, &found) == GLOBSET_DONE && found.count == count);
        CHECK(memcmp(by_set, found.at, count * sizeof *by_set) == 0);
        CHECK(raw_searcher_is_match(&searcher, path, len) == (count > 0 ? GLOBSET_YES : GLOBSET_NO));
        all += count;
    }
    CHECK(all > PATHS);
    raw_searcher_free(searcher);
    raw_set_free(set);
}

/* An object that is no searcher, in the place of one. Results are as they were. */
static void no_searcher(globset_owned *object) {
    static const size_t indexes[1] = {7};
    const uint8_t *path = (const uint8_t *)"a.c";
    const size_t end = 3;
    globset_indexes found = {indexes, 1};
    uint8_t byte = 9;
    size_t count = 9;
    CHECK(globset_raw_searcher_is_match(object, path, 3) == GLOBSET_WRONG_KIND);
    CHECK(globset_raw_searcher_matches_all(object, path, 3) == GLOBSET_WRONG_KIND);
    CHECK(globset_raw_searcher_can_match_below(object, path, 3) == GLOBSET_WRONG_KIND);
    CHECK(globset_raw_searcher_find(object, path, 3, &count) == GLOBSET_WRONG_KIND && count == 9);
    CHECK(globset_raw_searcher_found(object, &found) == GLOBSET_WRONG_KIND && found.count == 0);
    CHECK(globset_raw_searcher_is_match_many(object, path, 3, &end, 1, &byte, 1) == GLOBSET_WRONG_KIND && byte == 9);
    size_t index_end = 9, room = 9;
    CHECK(globset_raw_searcher_matches_many(object, path, 3, &end, 1, &index_end, 1, &room, 1, &count) ==
          GLOBSET_WRONG_KIND);
    CHECK(index_end == 9 && room == 9 && count == 9);
}

/* Objects of the wrong kind, each in each place. They are as they were. No object is lent and owned in one call. */
static void wrong_kinds(void) {
    static const char *const globs[] = {"*.c"};
    raw_glob glob = glob_of("*.c", 0);
    raw_matcher matcher;
    raw_builder builder;
    raw_set set = set_of(globs, 1);
    raw_matcher_searcher of_matcher;
    raw_searcher searcher;
    CHECK(raw_matcher_new(glob, &matcher) == GLOBSET_DONE && raw_searcher_new(set, &searcher) == GLOBSET_DONE);
    CHECK(raw_builder_new(&builder) == GLOBSET_DONE);
    CHECK(raw_matcher_searcher_new(matcher, &of_matcher) == GLOBSET_DONE);
    globset_owned *const objects[6] = {&glob.object, &matcher.object,    &builder.object,
                                       &set.object,  &of_matcher.object, &searcher.object};
    const uint8_t *path = (const uint8_t *)"a.c";
    for (int i = 0; i < 6; i++) {
        globset_lent lent = raw_lend(*objects[i]);
        globset_owned out = {&lent};
        uint8_t byte = 9;
        size_t size = 9;
        uint32_t options = 9;
        CHECK(i == 0 || globset_raw_glob_regex(&lent, &byte, 1, &size) == GLOBSET_WRONG_KIND);
        CHECK(i == 0 || globset_raw_glob_text(&lent, &byte, 1, &size) == GLOBSET_WRONG_KIND);
        CHECK(i == 0 || (globset_raw_glob_options(&lent, &options) == GLOBSET_WRONG_KIND && options == 9));
        CHECK(i == 0 || globset_raw_matcher_new(&lent, &out) == GLOBSET_WRONG_KIND);
        CHECK(i == 0 || i == 2 || globset_raw_builder_add(&builder.object, &lent) == GLOBSET_WRONG_KIND);
        CHECK(i == 1 || globset_raw_matcher_searcher_new(&lent, &out) == GLOBSET_WRONG_KIND);
        CHECK(i == 3 || globset_raw_set_len(&lent, &size) == GLOBSET_WRONG_KIND);
        CHECK(i == 3 || globset_raw_searcher_new(&lent, &out) == GLOBSET_WRONG_KIND);
        globset_lent globs_and_other[2] = {raw_lend(glob.object), lent};
        CHECK(i == 0 || globset_raw_set_of_globs(globs_and_other, 2, &out) == GLOBSET_WRONG_KIND);
        CHECK(byte == 9 && size == 9 && out.at == &lent);
        CHECK(i == 4 || globset_raw_matcher_searcher_is_match(objects[i], path, 3) == GLOBSET_WRONG_KIND);
        CHECK(i == 2 || globset_raw_builder_build(objects[i], &out) == GLOBSET_WRONG_KIND);
        CHECK(globset_raw_builder_set_dfa_size_limit(objects[i], 0) == (i == 2 ? GLOBSET_DONE : GLOBSET_WRONG_KIND));
        if (i < 5) no_searcher(objects[i]);
    }
    globset_lent lent_glob = raw_lend(glob.object);
    globset_owned out = {&lent_glob};
    CHECK(globset_raw_builder_add(&set.object, &lent_glob) == GLOBSET_WRONG_KIND);
    CHECK(globset_raw_builder_build(&set.object, &out) == GLOBSET_WRONG_KIND && out.at == &lent_glob);
    CHECK(raw_set_len(set) == 1);
    CHECK(raw_matcher_searcher_is_match(&of_matcher, "a.c", 3) == GLOBSET_YES);
    CHECK(raw_searcher_is_match(&searcher, "a.c", 3) == GLOBSET_YES);
    raw_glob_free(glob);
    raw_matcher_free(matcher);
    raw_builder_free(builder);
    raw_set_free(set);
    raw_matcher_searcher_free(of_matcher);
    raw_searcher_free(searcher);
}

int main(void) {
    versions();
    refused();
    not_read();
    nothing_said();
    options();
    bytes();
    texts();
    parts();
    sets();
    sets_of_globs();
    builders();
    limits();
    addresses();
    many();
    indexes_of_many();
    searchers();
    folders();
    many_globs();
    wrong_kinds();
    puts("calls: passed");
    return 0;
}
