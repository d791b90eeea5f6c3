/* Ignore files: globset_raw_ignore_.., with each status that they have, but GLOBSET_OUT_OF_MEMORY, which memory.c is for. */
#include "raw.h"

/* A walk with one file. */
static raw_ignore ignore_of(const char *file, uint32_t options) {
    raw_ignore ignore;
    CHECK(raw_ignore_new(options, &ignore) == GLOBSET_DONE);
    CHECK(raw_ignore_set_dfa_size_limit(&ignore, 1 << 20) == GLOBSET_DONE);
    CHECK(raw_ignore_add_file(&ignore, TEXT(file)) == GLOBSET_DONE);
    return ignore;
}

/* Whether the decision has this status, and is that of a line of a file. */
static int decides(raw_ignore *ignore, const char *path, uint32_t is_directory, uint32_t by, globset_status wanted,
                   size_t file, size_t line) {
    size_t found_file = 7, found_line = 7;
    globset_status status = raw_ignore_decide(ignore, path, strlen(path), is_directory, by, &found_file, &found_line);
    return status == wanted && found_file == file && found_line == line;
}

static void decisions(void) {
    raw_ignore ignore = ignore_of("/src\n!/src/a\n\nout/", 0);
    static const struct {
        const char *path;
        uint32_t is_directory;
        size_t lines[3];
    } rows[] = {
        {"src", 1, {1, 1, 1}},     {"src/a", 1, {1, 2, 2}}, {"src/a/b", 0, {1, 2, 0}}, {"src/b", 0, {1, 1, 0}},
        {"b", 0, {0, 0, 0}},       {"out", 0, {0, 0, 0}},   {"out", 1, {4, 4, 4}},     {"out", UINT32_MAX, {4, 4, 4}},
        {"x/out/b", 0, {4, 4, 0}}, {"", 0, {0, 0, 0}},
    };
    for (size_t i = 0; i < sizeof rows / sizeof *rows; i++)
        for (uint32_t by = 0; by < 3; by++) {
            size_t line = rows[i].lines[by];
            globset_status wanted = line == 1 || line == 4 ? GLOBSET_YES : GLOBSET_NO;
            CHECK(decides(&ignore, rows[i].path, rows[i].is_directory, by, wanted, 0, line));
        }
    raw_ignore_free(ignore);
}

static void walk(void) {
    raw_ignore ignore = ignore_of("*.o\n/out/\n", 0);
    CHECK(raw_ignore_add_file(&ignore, TEXT("!a.o\n")) == GLOBSET_DONE);
    CHECK(decides(&ignore, "a.o", 0, 0, GLOBSET_NO, 1, 1) && decides(&ignore, "b.o", 0, 0, GLOBSET_YES, 0, 1));
    CHECK(raw_ignore_leave(&ignore) == GLOBSET_DONE && raw_ignore_enter(&ignore, TEXT("src/b")) == GLOBSET_DONE);
    CHECK(raw_ignore_add_file(&ignore, TEXT("/a.o")) == GLOBSET_DONE);
    CHECK(decides(&ignore, "a.o", 0, 0, GLOBSET_YES, 2, 1) && decides(&ignore, "x/a.o", 0, 0, GLOBSET_NO, 1, 1));
    CHECK(raw_ignore_leave(&ignore) == GLOBSET_DONE && decides(&ignore, "src/b/a.o", 0, 0, GLOBSET_NO, 1, 1));
    CHECK(raw_ignore_enter(&ignore, TEXT("out")) == GLOBSET_DONE);
    CHECK(raw_ignore_add_file(&ignore, TEXT("!keep")) == GLOBSET_DONE);
    CHECK(decides(&ignore, "keep", 0, 0, GLOBSET_YES, 0, 2) && decides(&ignore, "keep", 0, 1, GLOBSET_NO, 2, 1));
    CHECK(decides(&ignore, "b", 0, 1, GLOBSET_YES, 0, 2) && decides(&ignore, "b", 0, 2, GLOBSET_NO, 0, 0));
    CHECK(raw_ignore_leave(&ignore) == GLOBSET_DONE && raw_ignore_leave(&ignore) == GLOBSET_DONE);
    CHECK(decides(&ignore, "a.o", 0, 0, GLOBSET_NO, 1, 1));
    raw_ignore_free(ignore);
    ignore = ignore_of("ab", GLOBSET_IGNORE_CASE);
    CHECK(decides(&ignore, "AB", 0, 0, GLOBSET_YES, 0, 1));
    raw_ignore_free(ignore);
}

static void many(void) {
    raw_ignore ignore = ignore_of("out/\n!out/a\n*.o\n", 0);
    static const size_t ends[4] = {3, 7, 12, 15}, descending[2] = {3, 2}, beyond[1] = {16};
    static const uint8_t by_git[4] = {0, 1, 1, 1}, nearest[4] = {0, 1, 2, 1};
    uint8_t answers[4] = {7, 7, 7, 7};
    CHECK(raw_ignore_decide_many(&ignore, TEXT("outout/out/ab.o"), descending, 2, 0, answers) == GLOBSET_BAD_ENDS);
    CHECK(raw_ignore_decide_many(&ignore, TEXT("outout/out/ab.o"), beyond, 1, 0, answers) == GLOBSET_BAD_ENDS);
    CHECK(raw_ignore_decide_many(&ignore, TEXT("outout/out/ab.o"), beyond, 1, 3, answers) == GLOBSET_UNKNOWN_OPTION);
    CHECK(globset_raw_ignore_decide_many(&ignore.object, raw_bytes("a"), 1, raw_no_indexes, 1, 0, answers, 0) ==
          GLOBSET_BAD_ENDS);
    for (int i = 0; i < 4; i++) CHECK(answers[i] == 7);
    CHECK(raw_ignore_decide_many(&ignore, TEXT("outout/out/ab.o"), ends, 4, 0, answers) == GLOBSET_DONE);
    CHECK(memcmp(answers, by_git, 4) == 0);
    CHECK(raw_ignore_decide_many(&ignore, TEXT("outout/out/ab.o"), ends, 4, 1, answers) == GLOBSET_DONE);
    CHECK(memcmp(answers, nearest, 4) == 0);
    CHECK(raw_ignore_decide_many(&ignore, NULL, 0, NULL, 0, 0, answers) == GLOBSET_DONE);
    CHECK(memcmp(answers, nearest, 4) == 0);
    raw_ignore_free(ignore);
}

static void rules_many(void) {
    raw_ignore ignore = ignore_of("out/\n!out/a\n*.o\n", 0);
    static const size_t ends[4] = {3, 7, 12, 15}, descending[2] = {3, 2}, beyond[1] = {16},
                        lines[2][4] = {{0, 1, 1, 4}, {0, 1, 2, 4}};
    static const uint32_t decisions[2][4] = {{0, 1, 1, 2}, {0, 1, 2, 2}};
    static const char paths[] = "outout/out/ab.o";
    globset_told_rule rules[4] = {{7, 7, 7}, {7, 7, 7}, {7, 7, 7}, {7, 7, 7}};
    CHECK(raw_ignore_rules_many(&ignore, TEXT(paths), descending, 2, 0, rules) == GLOBSET_BAD_ENDS);
    CHECK(raw_ignore_rules_many(&ignore, TEXT(paths), beyond, 1, 0, rules) == GLOBSET_BAD_ENDS);
    CHECK(raw_ignore_rules_many(&ignore, TEXT(paths), beyond, 1, 3, rules) == GLOBSET_UNKNOWN_OPTION);
    CHECK(globset_raw_ignore_rules_many(&ignore.object, raw_bytes("a"), 1, raw_no_indexes, 1, 0, rules, 0) ==
          GLOBSET_BAD_ENDS);
    for (int i = 0; i < 4; i++) CHECK(rules[i].file == 7 && rules[i].line == 7 && rules[i].decision == 7);
    CHECK(raw_ignore_add_file(&ignore, TEXT("#\n\n\n!b.o\n")) == GLOBSET_DONE);
    for (uint32_t by = 0; by < 2; by++) {
        CHECK(raw_ignore_rules_many(&ignore, TEXT(paths), ends, 4, by, rules) == GLOBSET_DONE);
        for (int i = 0; i < 4; i++)
            CHECK(rules[i].file == (i == 3) && rules[i].line == lines[by][i] && rules[i].decision == decisions[by][i]);
    }
    CHECK(raw_ignore_rules_many(&ignore, NULL, 0, NULL, 0, 0, rules) == GLOBSET_DONE && rules[3].line == 4);
    raw_ignore_free(ignore);
}

static void unread_lines(void) {
    raw_ignore ignore = ignore_of("[a\n#[\n\nb\\\n", 0);
    globset_indexes lines;
    CHECK(raw_ignore_unread_lines(&ignore, 0, &lines) == GLOBSET_DONE && lines.count == 2);
    CHECK(lines.at[0] == 1 && lines.at[1] == 4);
    CHECK(raw_ignore_unread_lines(&ignore, 1, &lines) == GLOBSET_BAD_INDEX && lines.count == 0);
    CHECK(raw_ignore_unread_lines(&ignore, SIZE_MAX, &lines) == GLOBSET_BAD_INDEX && lines.count == 0);
    CHECK(raw_ignore_add_file(&ignore, NULL, 0) == GLOBSET_DONE);
    CHECK(raw_ignore_unread_lines(&ignore, 1, &lines) == GLOBSET_DONE && lines.count == 0);
    raw_ignore_free(ignore);
}

/* Texts of lines, as `git check-ignore -v` prints them. */
static void line_texts(void) {
    static const struct {
        size_t file, line;
        const char *text;
    } rows[] = {
        {0, 1, "*.o"}, {0, 2, ""},   {0, 3, "# a b"}, {0, 4, "!a\\ "},     {0, 5, ""},
        {0, 6, NULL},  {0, 0, NULL}, {1, 1, "\xff"},  {0, SIZE_MAX, NULL}, {1, 2, NULL},
        {2, 1, ""},    {2, 2, NULL}, {3, 1, NULL},    {SIZE_MAX, 1, NULL},
    };
    raw_ignore ignore = ignore_of("\xef\xbb\xbf*.o  \r\n\n# a b\n!a\\ \n", 0);
    globset_bytes text;
    CHECK(raw_ignore_add_file(&ignore, TEXT("\xff")) == GLOBSET_DONE);
    CHECK(raw_ignore_add_file(&ignore, NULL, 0) == GLOBSET_DONE);
    for (size_t i = 0; i < sizeof rows / sizeof *rows; i++) {
        globset_status status = raw_ignore_line_text(&ignore, rows[i].file, rows[i].line, &text);
        CHECK(status == (rows[i].text == NULL ? GLOBSET_BAD_INDEX : GLOBSET_DONE));
        const char *wanted = rows[i].text == NULL ? "" : rows[i].text;
        CHECK(text.count == strlen(wanted) && memcmp(text.at, wanted, text.count) == 0);
    }
    raw_ignore_free(ignore);
}

/* Which rules of a file never decide. The walk is freed first. */
static void unreachable_rules(void) {
    raw_ignore ignore = ignore_of("x", 0), upper = ignore_of("A\na\n", GLOBSET_IGNORE_CASE);
    raw_answers told, at_limit, none, nested, any_case;
    globset_bytes path;
    globset_indexes indexes, lines;
    CHECK(raw_ignore_add_file(&ignore, TEXT("a[!b]\n#\na[a-z]\n[\n\nb\na[!a-z]\n!b\nc/\nc\n")) == GLOBSET_DONE);
    CHECK(raw_ignore_add_file(&ignore, NULL, 0) == GLOBSET_DONE);
    CHECK(raw_ignore_add_file(&ignore, TEXT("out/\n!/out/a\n")) == GLOBSET_DONE);
    CHECK(raw_ignore_unreachable(&ignore, 1, GLOBSET_RELATIVE_PATHS, 1000, &told) == GLOBSET_DONE);
    CHECK(raw_ignore_unreachable(&ignore, 1, GLOBSET_ALL_PATHS, 0, &at_limit) == GLOBSET_DONE);
    CHECK(raw_ignore_unreachable(&ignore, 2, GLOBSET_ALL_PATHS, 1000, &none) == GLOBSET_DONE);
    CHECK(raw_ignore_unreachable(&ignore, 3, GLOBSET_RELATIVE_PATHS, 1000, &nested) == GLOBSET_DONE);
    CHECK(raw_ignore_unreachable(&upper, 0, GLOBSET_RELATIVE_PATHS, 1000, &any_case) == GLOBSET_DONE);
    raw_ignore_free(ignore);
    raw_ignore_free(upper);
    static const size_t numbers[7] = {1, 3, 6, 7, 8, 9, 10};
    CHECK(raw_answers_lines(&told, &lines) == GLOBSET_DONE && lines.count == 7);
    CHECK(memcmp(lines.at, numbers, sizeof numbers) == 0);
    CHECK(raw_answers_at(&told, 0, &path, &indexes) == GLOBSET_NO && path.count == 0 && indexes.count == 2);
    CHECK(indexes.at[0] + indexes.at[1] == 4 && (indexes.at[0] == 1 || indexes.at[0] == 3));
    CHECK(raw_answers_at(&told, 1, &path, &indexes) == GLOBSET_YES && indexes.count == 0 && path.count == 2);
    CHECK(path.at[0] == 'a' && path.at[1] >= 'a' && path.at[1] <= 'z');
    CHECK(raw_answers_at(&told, 2, &path, &indexes) == GLOBSET_NO && indexes.count == 1 && indexes.at[0] == 4);
    CHECK(raw_answers_at(&told, 4, &path, &indexes) == GLOBSET_YES && path.count == 1 && path.at[0] == 'b');
    CHECK(raw_answers_at(&told, 5, &path, &indexes) == GLOBSET_NO && indexes.count == 1 && indexes.at[0] == 6);
    CHECK(raw_answers_at(&told, 6, &path, &indexes) == GLOBSET_YES && path.count == 1 && path.at[0] == 'c');
    CHECK(raw_answers_at(&told, 7, &path, &indexes) == GLOBSET_BAD_INDEX && path.count + indexes.count == 0);
    CHECK(raw_answers_lines(&at_limit, &lines) == GLOBSET_DONE && lines.count == 7);
    for (size_t i = 0; i < 7; i++)
        CHECK(raw_answers_at(&at_limit, i, &path, &indexes) == GLOBSET_LIMIT_REACHED &&
              path.count + indexes.count == 0);
    CHECK(raw_answers_lines(&none, &lines) == GLOBSET_DONE && lines.count == 0);
    CHECK(raw_answers_at(&none, 0, &path, &indexes) == GLOBSET_BAD_INDEX);
    CHECK(raw_answers_at(&nested, 0, &path, &indexes) == GLOBSET_YES && path.count == 3);
    CHECK(raw_answers_at(&nested, 1, &path, &indexes) == GLOBSET_BELOW_IGNORED && path.count == 0);
    CHECK(indexes.count == 1 && indexes.at[0] == 0);
    CHECK(raw_answers_at(&any_case, 0, &path, &indexes) == GLOBSET_NO && indexes.count == 1 && indexes.at[0] == 1);
    raw_answers_free(told);
    raw_answers_free(at_limit);
    raw_answers_free(none);
    raw_answers_free(nested);
    raw_answers_free(any_case);
}

/* Numbers that stand for nothing, which are looked at first, and objects of another kind. */
static void refused(void) {
    raw_ignore none = {{&none}}, ignore = ignore_of("a", 0);
    raw_glob glob = glob_of("a", 0);
    raw_ignore glob_as_ignore = {glob.object};
    raw_searcher ignore_as_searcher = {ignore.object};
    raw_set ignore_as_set = {ignore.object};
    raw_answers no_answers = {{&no_answers}};
    globset_bytes text;
    globset_indexes lines;
    uint8_t answer = 7;
    globset_told_rule rule = {7, 7, 7};
    const size_t end = 1, wrong_end = 2;
    const void *at = ignore.object.at;
    for (uint32_t wrong = 2; wrong != 0; wrong *= 2)
        CHECK(raw_ignore_new(wrong, &none) == GLOBSET_UNKNOWN_OPTION && none.object.at == &none);
    for (uint32_t by = 3; by != 0; by = by < 4 ? 4 : by * 2) {
        CHECK(decides(&glob_as_ignore, "a", 0, by, GLOBSET_UNKNOWN_OPTION, 7, 7));
        CHECK(decides(&ignore, "a", 0, by, GLOBSET_UNKNOWN_OPTION, 7, 7));
    }
    CHECK(decides(&glob_as_ignore, "a", 0, 0, GLOBSET_WRONG_KIND, 7, 7));
    CHECK(raw_ignore_set_dfa_size_limit(&glob_as_ignore, 0) == GLOBSET_WRONG_KIND);
    CHECK(raw_ignore_add_file(&glob_as_ignore, TEXT("a")) == GLOBSET_WRONG_KIND);
    CHECK(raw_ignore_enter(&glob_as_ignore, TEXT("a")) == GLOBSET_WRONG_KIND);
    CHECK(raw_ignore_leave(&glob_as_ignore) == GLOBSET_WRONG_KIND);
    CHECK(raw_ignore_decide_many(&glob_as_ignore, TEXT("a"), &wrong_end, 1, 0, &answer) == GLOBSET_BAD_ENDS);
    CHECK(raw_ignore_decide_many(&glob_as_ignore, TEXT("a"), &end, 1, 0, &answer) == GLOBSET_WRONG_KIND && answer == 7);
    CHECK(raw_ignore_rules_many(&glob_as_ignore, TEXT("a"), &wrong_end, 1, 0, &rule) == GLOBSET_BAD_ENDS);
    CHECK(raw_ignore_rules_many(&glob_as_ignore, TEXT("a"), &end, 1, 0, &rule) == GLOBSET_WRONG_KIND && rule.line == 7);
    CHECK(raw_ignore_unread_lines(&glob_as_ignore, 0, &lines) == GLOBSET_WRONG_KIND && lines.count == 0);
    CHECK(raw_ignore_line_text(&glob_as_ignore, 0, 1, &text) == GLOBSET_WRONG_KIND && text.count == 0);
    for (uint32_t wrong = 2; wrong != 0; wrong *= 2)
        CHECK(raw_ignore_unreachable(&glob_as_ignore, 0, wrong, 9, &no_answers) == GLOBSET_UNKNOWN_OPTION);
    CHECK(raw_ignore_unreachable(&glob_as_ignore, 1, 0, 9, &no_answers) == GLOBSET_WRONG_KIND);
    CHECK(raw_ignore_unreachable(&ignore, 1, 0, 9, &no_answers) == GLOBSET_BAD_INDEX);
    CHECK(raw_ignore_unreachable(&ignore, SIZE_MAX, 0, 9, &no_answers) == GLOBSET_BAD_INDEX);
    CHECK(no_answers.object.at == &no_answers);
    CHECK(glob_as_ignore.object.at == glob.object.at);
    CHECK(raw_searcher_is_match(&ignore_as_searcher, TEXT("a")) == GLOBSET_WRONG_KIND);
    CHECK(raw_searcher_new(ignore_as_set, &ignore_as_searcher) == GLOBSET_WRONG_KIND);
    CHECK(decides(&ignore, "a", 0, 0, GLOBSET_YES, 0, 1) && ignore.object.at == at);
    raw_ignore_free(ignore);
    raw_glob_free(glob);
}

int main(void) {
    decisions();
    walk();
    many();
    rules_many();
    unread_lines();
    line_texts();
    unreachable_rules();
    refused();
    puts("ignore: passed");
    return 0;
}
