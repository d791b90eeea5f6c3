/* Ignore files, through globset.h: each result of each function, but GLOBSET_ENOMEM, which memory.c is for. The answers are
 * those of docs/GIT_IGNORE.md and of `git check-ignore`. */
#include "objects.h"

enum { NONE = 0, MANY = 6 };

/* A walk with one file. */
static globset_ignore *ignore_of(const char *file, uint32_t options) {
    globset_ignore *ignore;
    CHECK(globset_ignore_new(options, &ignore) == GLOBSET_OK);
    CHECK(globset_ignore_add_file(ignore, TEXT(file)) == GLOBSET_OK);
    return ignore;
}

/* Whether the decision is that of a line of a file, and 1, 0 or an error. The line is NONE if no rule decides. */
static int decides(globset_ignore *ignore, const char *path, int is_directory, uint32_t by, int answer, size_t file,
                   size_t line) {
    globset_rule rule = {7, 7};
    CHECK(globset_ignore_is_ignored(ignore, TEXT(path), is_directory, by, NULL) == answer);
    CHECK(globset_ignore_is_ignored(ignore, path, GLOBSET_ZERO_TERMINATED, is_directory, by, &rule) == answer);
    return rule.file == file && rule.line == line;
}

static int is_rule(globset_told_rule rule, globset_told_rule wanted) {
    return rule.file == wanted.file && rule.line == wanted.line && rule.decision == wanted.decision;
}

/* A line, and paths that it matches and that it does not. */
static void patterns(void) {
    static const struct {
        const char *line, *matched, *other;
    } rows[] = {
        {"a/**/b", "a/x/y/b", "ab"},
        {"a**/b", "a/x/b", "axb"},
        {"[a]**/b", "ax/b", "a/x/b"},
        {"/a**", "a/b", "ba"},
        {"a**b/c", "axb/c", "a/b/c"},
        {"**/a", "b/c/a", "ba"},
        {"**\\/a", "b/a", "a"},
        {"a/**", "a/b/c", "a"},
        {"??", "x/\xc3\xa9", "a"},
        {"a\r", "b/a", "a\r"},
        {"a  ", "a", "a  "},
        {"a\\ ", "a ", "a"},
        {"\xef\xbb\xbf"
         "a",
         "a",
         "\xef\xbb\xbf"
         "a"},
        {"\\#a", "#a", "a"},
        {"#a\n\\!b", "!b", "#a"},
        {"/a", "a", "b/a"},
        {"[[:alpha]", "h", "b"},
        {"[z-a]", "z", "y"},
        {"{a,b}", "{a,b}", "a"},
        {"a\n[b", "a", "[b"},
    };
    for (size_t i = 0; i < sizeof rows / sizeof *rows; i++) {
        globset_ignore *ignore = ignore_of(rows[i].line, 0);
        for (uint32_t by = GLOBSET_BY_GIT; by <= GLOBSET_BY_PATH; by++) {
            CHECK(globset_ignore_is_ignored(ignore, TEXT(rows[i].matched), 0, by, NULL) == 1);
            CHECK(globset_ignore_is_ignored(ignore, TEXT(rows[i].other), 0, by, NULL) == 0);
        }
        globset_ignore_free(ignore);
    }
}

/* The same paths under each rule. */
static void what_decides(void) {
    globset_ignore *ignore = ignore_of("# rules\n/src\n!/src/a\nout/\n", 0);
    static const struct {
        const char *path;
        int is_directory;
        size_t lines[3]; /* by git's rule, by the nearest decision, and of the path alone */
    } rows[] = {
        {"src", 1, {2, 2, 2}},      {"src/a", 1, {2, 3, 3}},      {"src/a/b", 0, {2, 3, NONE}},
        {"src/b", 0, {2, 2, NONE}}, {"b", 0, {NONE, NONE, NONE}}, {"x/out", 0, {NONE, NONE, NONE}},
        {"x/out", 1, {4, 4, 4}},    {"x/out", -7, {4, 4, 4}},     {"x/out/b", 0, {4, 4, NONE}},
        {"x/out/", 0, {4, 4, 4}},   {"src/", 1, {2, 2, 2}},       {"/", 0, {NONE, NONE, NONE}},
    };
    for (size_t i = 0; i < sizeof rows / sizeof *rows; i++)
        for (uint32_t by = GLOBSET_BY_GIT; by <= GLOBSET_BY_PATH; by++) {
            size_t line = rows[i].lines[by];
            int answer = line == 2 || line == 4;
            CHECK(decides(ignore, rows[i].path, rows[i].is_directory, by, answer, 0, line));
        }
    for (uint32_t by = GLOBSET_BY_PATH + 1; by != 0; by *= 2)
        CHECK(decides(ignore, "src", 1, by, GLOBSET_EOPTIONS, 0, NONE));
    globset_ignore_free(ignore);
}

/* A deeper file, and a later one of the same directory, takes precedence. */
static void walk(void) {
    globset_ignore *ignore = ignore_of("*.o\n/out/\n", 0);
    CHECK(globset_ignore_add_file(ignore, TEXT("!a.o\n")) == GLOBSET_OK);
    CHECK(decides(ignore, "a.o", 0, GLOBSET_BY_GIT, 0, 1, 1) && decides(ignore, "b.o", 0, GLOBSET_BY_GIT, 1, 0, 1));
    CHECK(globset_ignore_leave(ignore) == GLOBSET_OK);
    CHECK(globset_ignore_enter(ignore, "src/b", GLOBSET_ZERO_TERMINATED) == GLOBSET_OK);
    CHECK(decides(ignore, "a.o", 0, GLOBSET_BY_GIT, 0, 1, 1) && decides(ignore, "out", 1, GLOBSET_BY_GIT, 0, 0, NONE));
    CHECK(globset_ignore_add_file(ignore, TEXT("\n/a.o")) == GLOBSET_OK);
    CHECK(decides(ignore, "a.o", 0, GLOBSET_BY_GIT, 1, 2, 2) && decides(ignore, "x/a.o", 0, GLOBSET_BY_GIT, 0, 1, 1));
    CHECK(globset_ignore_leave(ignore) == GLOBSET_OK);
    CHECK(decides(ignore, "src/b/a.o", 0, GLOBSET_BY_GIT, 0, 1, 1));
    CHECK(globset_ignore_enter(ignore, TEXT("out")) == GLOBSET_OK);
    CHECK(globset_ignore_add_file(ignore, TEXT("!keep\n")) == GLOBSET_OK);
    CHECK(decides(ignore, "keep", 0, GLOBSET_BY_GIT, 1, 0, 2) &&
          decides(ignore, "keep", 0, GLOBSET_BY_NEAREST, 0, 2, 1));
    CHECK(decides(ignore, "b", 0, GLOBSET_BY_NEAREST, 1, 0, 2) && decides(ignore, "b", 0, GLOBSET_BY_PATH, 0, 0, NONE));
    CHECK(globset_ignore_leave(ignore) == GLOBSET_OK && globset_ignore_enter(ignore, TEXT("out/")) == GLOBSET_OK);
    CHECK(decides(ignore, "b", 0, GLOBSET_BY_GIT, 1, 0, 2));
    CHECK(globset_ignore_leave(ignore) == GLOBSET_OK && globset_ignore_leave(ignore) == GLOBSET_OK);
    CHECK(decides(ignore, "a.o", 0, GLOBSET_BY_GIT, 0, 1, 1));
    globset_ignore_free(ignore);
}

static void options(void) {
    globset_ignore *ignore = ignore_of("ab\n\\C\n[d-e]x\n", GLOBSET_IGNORE_CASE), *none = ignore;
    CHECK(decides(ignore, "AB", 0, GLOBSET_BY_GIT, 1, 0, 1) && decides(ignore, "EX", 0, GLOBSET_BY_GIT, 1, 0, 3));
    CHECK(decides(ignore, "C", 0, GLOBSET_BY_GIT, 0, 0, NONE) && decides(ignore, "c", 0, GLOBSET_BY_GIT, 0, 0, NONE));
    globset_ignore_free(ignore);
    for (uint32_t wrong = 2; wrong != 0; wrong *= 2)
        CHECK(globset_ignore_new(wrong | GLOBSET_IGNORE_CASE, &none) == GLOBSET_EOPTIONS && none == NULL);
    ignore = ignore_of("ab", 0);
    CHECK(decides(ignore, "AB", 0, GLOBSET_BY_GIT, 0, 0, NONE));
    globset_ignore_free(ignore);
}

/* Many paths, whose decisions are those of one path each. */
static void many(void) {
    static const char paths[] = "outout/out/ab.ok.o", rest[] = "x";
    static const size_t ends[MANY] = {3, 7, 12, 15, 18, 18}, descending[2] = {3, 2}, beyond[1] = {4};
    static const uint8_t wanted[3][MANY] = {
        {GLOBSET_UNDECIDED, GLOBSET_IGNORED, GLOBSET_IGNORED, GLOBSET_IGNORED, GLOBSET_KEPT, 0},
        {GLOBSET_UNDECIDED, GLOBSET_IGNORED, GLOBSET_KEPT, GLOBSET_IGNORED, GLOBSET_KEPT, 0},
        {GLOBSET_UNDECIDED, GLOBSET_IGNORED, GLOBSET_KEPT, GLOBSET_IGNORED, GLOBSET_KEPT, 0}};
    globset_ignore *ignore = ignore_of("out/\n!out/a\n*.o\n!k.o\n", 0);
    uint8_t answers[MANY];
    for (uint32_t by = GLOBSET_BY_GIT; by <= GLOBSET_BY_PATH; by++) {
        memset(answers, 7, sizeof answers);
        CHECK(globset_ignore_decide_many(ignore, TEXT(paths), ends, MANY, by, answers) == GLOBSET_OK);
        CHECK(memcmp(answers, wanted[by], sizeof answers) == 0);
    }
    memset(answers, 7, sizeof answers);
    CHECK(globset_ignore_decide_many(ignore, TEXT(paths), descending, 2, 0, answers) == GLOBSET_EOFFSETS);
    CHECK(globset_ignore_decide_many(ignore, TEXT(rest), beyond, 1, 0, answers) == GLOBSET_EOFFSETS);
    CHECK(globset_ignore_decide_many(ignore, TEXT(rest), beyond, 1, 3, answers) == GLOBSET_EOPTIONS);
    CHECK(globset_ignore_decide_many(ignore, NULL, 0, NULL, 0, 0, NULL) == GLOBSET_OK);
    for (int i = 0; i < MANY; i++) CHECK(answers[i] == 7);
    globset_ignore_free(ignore);
}

/* The rules of many paths, which are those of one path each. */
static void rules_many(void) {
    static const char paths[] = "outout/out/ab.ok.o", rest[] = "x";
    static const size_t ends[MANY] = {3, 7, 12, 15, 18, 18}, descending[2] = {3, 2}, beyond[1] = {4};
    static const globset_told_rule wanted[3][MANY] = {
        {{0, 0, 0}, {0, 1, 1}, {0, 1, 1}, {0, 3, 1}, {1, 2, 2}, {0, 0, 0}},
        {{0, 0, 0}, {0, 1, 1}, {0, 2, 2}, {0, 3, 1}, {1, 2, 2}, {0, 0, 0}},
        {{0, 0, 0}, {0, 1, 1}, {0, 2, 2}, {0, 3, 1}, {1, 2, 2}, {0, 0, 0}}};
    static const globset_told_rule before = {7, 8, 9};
    globset_ignore *ignore = ignore_of("out/\n!out/a\n*.o\n", 0);
    globset_told_rule rules[MANY];
    CHECK(globset_ignore_add_file(ignore, TEXT("# kept\n!k.o\n")) == GLOBSET_OK);
    for (uint32_t by = GLOBSET_BY_GIT; by <= GLOBSET_BY_PATH; by++) {
        CHECK(globset_ignore_rules_many(ignore, TEXT(paths), ends, MANY, by, rules) == GLOBSET_OK);
        for (int i = 0; i < MANY; i++) CHECK(is_rule(rules[i], wanted[by][i]));
    }
    for (int i = 0; i < MANY; i++) rules[i] = before;
    CHECK(globset_ignore_rules_many(ignore, TEXT(paths), descending, 2, 0, rules) == GLOBSET_EOFFSETS);
    CHECK(globset_ignore_rules_many(ignore, TEXT(rest), beyond, 1, 0, rules) == GLOBSET_EOFFSETS);
    CHECK(globset_ignore_rules_many(ignore, TEXT(rest), beyond, 1, 3, rules) == GLOBSET_EOPTIONS);
    CHECK(globset_ignore_rules_many(ignore, NULL, 0, NULL, 0, 0, NULL) == GLOBSET_OK);
    for (int i = 0; i < MANY; i++) CHECK(is_rule(rules[i], before));
    globset_ignore_free(ignore);
}

static void unread_lines(void) {
    globset_ignore *ignore = ignore_of("a\n[b\n\n#[\nc\\\n[[:x:]]", 0);
    const size_t *lines = NULL;
    size_t count = 7;
    CHECK(globset_ignore_unread_lines(ignore, 0, &lines, &count) == GLOBSET_OK && count == 3);
    CHECK(lines[0] == 2 && lines[1] == 5 && lines[2] == 6);
    CHECK(globset_ignore_unread_lines(ignore, 1, &lines, &count) == GLOBSET_EINDEX && lines == NULL && count == 0);
    CHECK(globset_ignore_enter(ignore, TEXT("d")) == GLOBSET_OK);
    CHECK(globset_ignore_add_file(ignore, NULL, 0) == GLOBSET_OK);
    count = 7;
    CHECK(globset_ignore_unread_lines(ignore, 1, &lines, &count) == GLOBSET_OK && lines != NULL && count == 0);
    CHECK(globset_ignore_leave(ignore) == GLOBSET_OK);
    CHECK(globset_ignore_unread_lines(ignore, 1, &lines, &count) == GLOBSET_EINDEX && lines == NULL);
    CHECK(globset_ignore_unread_lines(ignore, SIZE_MAX, &lines, &count) == GLOBSET_EINDEX);
    globset_ignore_free(ignore);
}

/* Whether a line of a file has this text, which is null if there is no such line. */
static int has_text(globset_ignore *ignore, size_t file, size_t line, const char *wanted) {
    const char *text = "x";
    size_t length = 7;
    int result = globset_ignore_line_text(ignore, file, line, &text, &length);
    if (wanted == NULL) return result == GLOBSET_EINDEX && text == NULL && length == 0;
    CHECK(result == GLOBSET_OK && length == strlen(wanted) && memcmp(text, wanted, length) == 0);
    return globset_ignore_line_text(ignore, file, line, &text, NULL) == GLOBSET_OK && memcmp(text, wanted, length) == 0;
}

/* The texts that `git check-ignore -v` prints of rules, and those of other lines. */
static void line_texts(void) {
    static const char file[] = "\xef\xbb\xbf*.o\r\n\n# text  \n!a\\ \\b  \n[c\n/d\0e";
    globset_ignore *ignore;
    CHECK(globset_ignore_new(0, &ignore) == GLOBSET_OK);
    CHECK(globset_ignore_add_file(ignore, file, sizeof file - 1) == GLOBSET_OK);
    CHECK(globset_ignore_add_file(ignore, TEXT("x \n")) == GLOBSET_OK);
    CHECK(has_text(ignore, 0, 1, "*.o") && has_text(ignore, 0, 2, "") && has_text(ignore, 0, 3, "# text"));
    CHECK(has_text(ignore, 0, 4, "!a\\ \\b") && has_text(ignore, 0, 5, "[c") && has_text(ignore, 0, 6, "/d"));
    CHECK(has_text(ignore, 1, 1, "x") && has_text(ignore, 1, 2, "") && has_text(ignore, 1, 3, NULL));
    CHECK(has_text(ignore, 0, 0, NULL) && has_text(ignore, 0, 7, NULL) && has_text(ignore, 0, SIZE_MAX, NULL));
    CHECK(has_text(ignore, 2, 1, NULL) && has_text(ignore, SIZE_MAX, 1, NULL));
    CHECK(decides(ignore, "y/b.o", 0, GLOBSET_BY_GIT, 1, 0, 1) && has_text(ignore, 0, 1, "*.o"));
    globset_ignore_free(ignore);
}

/* The example of globset.h. */
static void example(void) {
    globset_ignore *ignore = NULL;
    int result = globset_ignore_new(0, &ignore);
    if (result == GLOBSET_OK) result = globset_ignore_add_file(ignore, "*.o\nout/\n", GLOBSET_ZERO_TERMINATED);
    if (result == GLOBSET_OK) result = globset_ignore_enter(ignore, "src", GLOBSET_ZERO_TERMINATED);
    if (result == GLOBSET_OK) result = globset_ignore_add_file(ignore, "!keep.o\n", GLOBSET_ZERO_TERMINATED);
    if (result == GLOBSET_OK) result = globset_ignore_is_ignored(ignore, "a.o", 3, 0, GLOBSET_BY_GIT, NULL);
    CHECK(result == 1 && globset_ignore_is_ignored(ignore, "keep.o", 6, 0, GLOBSET_BY_GIT, NULL) == 0);
    globset_ignore_free(ignore);
}

int main(void) {
    patterns();
    what_decides();
    walk();
    options();
    many();
    rules_many();
    unread_lines();
    line_texts();
    example();
    puts("ignore: passed");
    return 0;
}
