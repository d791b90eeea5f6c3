/* random [SEED [ROUNDS]]: calls that nobody should make, chosen at random, in eight threads at a time: null in any
 * place, objects of another kind, lengths that no array has, texts that are no globs or not UTF-8, NULs inside, options
 * that are none, ends that descend, and buffers that are too small. Each call has to end in a result that it may have,
 * and after each round all objects have to answer as at first. A crash ends the program, so it is worth most with
 * sanitizers. MISUSE_ROUNDS is the number of rounds where none is said, or 200. */
#include "objects.h"

#include <pthread.h>

enum { THREADS = 8, CALLS = 20, KINDS = 7, PIECES = 14 };

static const char *const globs[] = {"*.c", "src/**", "{a,b}*", "*a*b*c", "[!x]?"};
static const struct {
    const char *at;
    size_t length;
} pieces[PIECES] = {{"*.c", 3}, {"src/a.c", 7}, {"", 0},   {"a\0b", 3}, {"\xff\xfe", 2}, {"[z-a]", 5}, {"{a,{b", 5},
                    {"\\", 1},  {NULL, 0},      {NULL, 5}, {"a", 2},    {"abc", 3},      {"**", 2},    {"a}", 2}};
static const size_t impossible[] = {(size_t)-1, (size_t)-2, GLOBSET_ZERO_TERMINATED + 7};

/* What one thread uses. Objects number 0 and 1, a glob and a set, are those of all threads. */
struct caller {
    uint64_t state;
    void *objects[KINDS];
    long errors, answers;
};

static uint64_t next(struct caller *caller, uint64_t count) {
    caller->state ^= caller->state << 13;
    caller->state ^= caller->state >> 7;
    caller->state ^= caller->state << 17;
    return (caller->state >> 11) % count;
}

/* A pointer to an object: of the wanted kind, of another, or null. */
static void *object(struct caller *caller, int kind) {
    uint64_t chosen = next(caller, 10);
    if (chosen == 0) return NULL;
    return caller->objects[chosen < 7 ? kind : (int)next(caller, KINDS)];
}

/* Bytes and a length that is theirs, or one that no array has, or that stands for a string. */
static const char *text(struct caller *caller, size_t *length) {
    uint64_t piece = next(caller, PIECES), chosen = next(caller, 12);
    *length = pieces[piece].length;
    if (chosen == 0) *length = impossible[next(caller, 3)];
    if (chosen == 1) *length = GLOBSET_ZERO_TERMINATED;
    return pieces[piece].at;
}

/* Notes a result, which has to be one of those that there are. */
static void note(struct caller *caller, int result) {
    CHECK(result <= 1 && result >= GLOBSET_EINDEX && result != GLOBSET_ENOMEM);
    *(result < 0 ? &caller->errors : &caller->answers) += 1;
}

static void ask(struct caller *caller) {
    size_t length, count = 9, ends[2] = {(size_t)next(caller, 4), (size_t)next(caller, 4)}, found[8], index_ends[2];
    const char *path = text(caller, &length);
    const size_t *indexes;
    uint8_t answers[2];
    size_t many = next(caller, 8) == 0 ? impossible[next(caller, 3)] : next(caller, 3);
    switch (next(caller, 8)) {
    case 0: note(caller, globset_set_is_match(object(caller, 1), path, length)); break;
    case 1: note(caller, globset_matcher_is_match(object(caller, 4), path, length)); break;
    case 2: note(caller, globset_searcher_is_match(object(caller, 2), path, length)); break;
    case 3: note(caller, globset_searcher_matches_all(object(caller, 2), path, length)); break;
    case 4: note(caller, globset_searcher_can_match_below(object(caller, 2), path, length)); break;
    case 5: {
        int result = globset_searcher_find(object(caller, 2), path, length, next(caller, 9) ? &indexes : NULL, &count);
        CHECK(count <= 5);
        note(caller, result);
        break;
    }
    case 6:
        note(caller, globset_searcher_is_match_many(object(caller, 2), path, length, next(caller, 9) ? ends : NULL,
                                                    many, next(caller, 9) ? answers : NULL));
        break;
    default:
        note(caller, globset_searcher_find_many(object(caller, 2), path, length, ends, many, index_ends, found,
                                                next(caller, 9), next(caller, 9) ? &count : NULL));
    }
}

static void write_text(struct caller *caller) {
    globset_error error = {(uint32_t)next(caller, 9), (uint32_t)next(caller, 0x120000), 'a', next(caller, 99)};
    char buffer[64];
    size_t length, written, size = next(caller, 10) == 0 ? impossible[next(caller, 3)] : next(caller, sizeof buffer);
    const char *bytes = text(caller, &length);
    char *to = next(caller, 9) ? buffer : NULL;
    size_t *end = next(caller, 9) ? &written : NULL;
    switch (next(caller, 4)) {
    case 0: note(caller, globset_glob_text(object(caller, 0), to, size, end)); break;
    case 1: note(caller, globset_glob_regex(object(caller, 0), to, size, end)); break;
    case 2: note(caller, globset_escape(bytes, length, to, size, end)); break;
    default: note(caller, globset_error_text(next(caller, 9) ? &error : NULL, bytes, length, to, size, end));
    }
}

/* Asks about all paths, or reads the answers of the thread. */
static void relate(struct caller *caller) {
    const globset_glob *two[2] = {object(caller, 0), object(caller, 0)};
    uint32_t domain = (uint32_t)next(caller, 3), decides = (uint32_t)next(caller, 3);
    size_t count = next(caller, 8) == 0 ? impossible[next(caller, 3)] : next(caller, 3), limit = next(caller, 100);
    globset_answers *made = NULL, **to = next(caller, 9) ? &made : NULL;
    const globset_glob *const *list = next(caller, 9) ? two : NULL;
    const char *path;
    const size_t *indexes;
    size_t line, lines[2];
    uint32_t found;
    switch (next(caller, 8)) {
    case 0: note(caller, globset_covering(object(caller, 0), list, count, domain, limit, to)); break;
    case 1: note(caller, globset_overlap(two[0], two[1], domain, limit, to)); break;
    case 2: note(caller, globset_unreachable(list, count, decides, domain, limit, to)); break;
    case 3: note(caller, globset_answers_has_path(object(caller, 5), next(caller, 3), &path, &count)); break;
    case 4: note(caller, globset_answers_rule(object(caller, 5), next(caller, 3), &line, &found)); break;
    case 5:
        note(caller, globset_answers_lines(object(caller, 5), next(caller, 3), next(caller, 9) ? lines : NULL,
                                           count < 3 ? next(caller, 3) : count, next(caller, 9) ? &line : NULL));
        break;
    case 6: {
        int result = globset_ignore_unreachable(object(caller, 6), next(caller, 3), domain, limit, to);
        note(caller, result);
        if (result == GLOBSET_OK) note(caller, globset_answers_rule(made, next(caller, 2), &line, &found));
        break;
    }
    default: note(caller, globset_answers_indexes(object(caller, 5), next(caller, 3), &indexes, &count));
    }
    globset_searcher_free((globset_searcher *)made);
    globset_answers_free(made);
}

/* Asks the walk of the thread, or has it enter a directory, with a file, and leave it. */
static void walk(struct caller *caller) {
    size_t length, count, ends[2] = {(size_t)next(caller, 4), (size_t)next(caller, 4)};
    const char *bytes = text(caller, &length);
    globset_ignore *ignore = object(caller, 6), *made = NULL;
    size_t many = next(caller, 8) == 0 ? impossible[next(caller, 3)] : next(caller, 3);
    uint32_t by = (uint32_t)next(caller, 4);
    globset_rule rule;
    const size_t *lines;
    const char *line;
    uint8_t answers[2];
    globset_told_rule rules[2];
    int result;
    switch (next(caller, 7)) {
    case 0:
        note(caller, globset_ignore_is_ignored(ignore, bytes, length, 0, by, next(caller, 9) ? &rule : NULL));
        break;
    case 1:
        note(caller, globset_ignore_decide_many(ignore, bytes, length, next(caller, 9) ? ends : NULL, many, by,
                                                next(caller, 9) ? answers : NULL));
        break;
    case 2: note(caller, globset_ignore_unread_lines(ignore, next(caller, 3), &lines, &count)); break;
    case 5:
        note(caller, globset_ignore_line_text(ignore, next(caller, 3), next(caller, 3), &line,
                                              next(caller, 9) ? &count : NULL));
        break;
    case 4:
        note(caller, globset_ignore_rules_many(ignore, bytes, length, next(caller, 9) ? ends : NULL, many, by,
                                               next(caller, 9) ? rules : NULL));
        break;
    case 3:
        note(caller, globset_ignore_new((uint32_t)next(caller, 3), next(caller, 9) ? &made : NULL));
        globset_answers_free((globset_answers *)made);
        globset_ignore_free(made);
        break;
    default:
        result = globset_ignore_enter(ignore, bytes, length);
        note(caller, result);
        if (result != GLOBSET_OK) break;
        note(caller, globset_ignore_add_file(ignore, bytes, length));
        note(caller, globset_ignore_leave(ignore));
    }
}

/* Makes an object and frees it, or passes it to the `_free` of another kind first. */
static void make(struct caller *caller) {
    size_t length, index;
    uint32_t options = (uint32_t)next(caller, 80);
    const char *bytes = text(caller, &length);
    globset_error error;
    globset_glob *glob = NULL;
    globset_set *set = NULL;
    globset_builder *builder = (globset_builder *)object(caller, 3);
    note(caller, globset_glob_new(bytes, length, options, &error, &glob));
    note(caller, globset_set_new(&bytes, &length, &options, next(caller, 2), &error, &index, &set));
    note(caller, globset_builder_add(builder, next(caller, 2) && glob ? glob : object(caller, 0)));
    globset_matcher_free((globset_matcher *)glob);
    globset_searcher_free((globset_searcher *)set);
    globset_set_free((globset_set *)glob);
    globset_glob_free(glob);
    globset_set_free(set);
    note(caller, globset_builder_build(builder, &set));
    globset_set_free(set);
}

static void check_answers(struct caller *caller) {
    static const size_t wanted[] = {0, 1};
    CHECK(globset_set_is_match(caller->objects[1], "src/x.c", 7) == 1 && globset_set_length(caller->objects[1]) == 5);
    CHECK(finds(caller->objects[2], "src/x.c", wanted, 2));
    CHECK(globset_matcher_is_match(caller->objects[4], "abc", 3) == 1);
    CHECK(globset_answers_has_path(caller->objects[5], 0, NULL, NULL) == 1);
    CHECK(globset_ignore_is_ignored(caller->objects[6], "src/a.o", 7, 0, GLOBSET_BY_GIT, NULL) == 1);
}

struct work {
    struct caller caller;
    long rounds;
};

static void *run(void *at) {
    struct work *work = at;
    struct caller *caller = &work->caller;
    globset_searcher *searcher;
    globset_matcher *matcher;
    globset_builder *builder;
    globset_answers *answers;
    globset_ignore *ignore;
    CHECK(globset_ignore_new(0, &ignore) == GLOBSET_OK);
    CHECK(globset_ignore_add_file(ignore, "*.o", 3) == GLOBSET_OK);
    CHECK(globset_overlap(caller->objects[0], caller->objects[0], 0, 100, &answers) == GLOBSET_OK);
    CHECK(globset_searcher_new(caller->objects[1], &searcher) == GLOBSET_OK);
    CHECK(globset_matcher_new(caller->objects[0], &matcher) == GLOBSET_OK);
    CHECK(globset_builder_new(&builder) == GLOBSET_OK);
    caller->objects[2] = searcher;
    caller->objects[3] = builder;
    caller->objects[4] = matcher;
    caller->objects[5] = answers;
    caller->objects[6] = ignore;
    for (long round = 0; round < work->rounds; round++) {
        for (int i = 0; i < CALLS; i++) {
            uint64_t chosen = next(caller, 12);
            if (chosen == 0)
                make(caller);
            else if (chosen < 3)
                write_text(caller);
            else if (chosen < 5)
                relate(caller);
            else if (chosen < 7)
                walk(caller);
            else
                ask(caller);
        }
        check_answers(caller);
    }
    globset_searcher_free(searcher);
    globset_matcher_free(matcher);
    globset_builder_free(builder);
    globset_answers_free(answers);
    globset_ignore_free(ignore);
    return NULL;
}

int main(int argc, char **argv) {
    uint64_t seed = argc > 1 ? strtoull(argv[1], NULL, 10) : 1;
    const char *given = getenv("MISUSE_ROUNDS");
    long rounds = strtol(argc > 2 ? argv[2] : given != NULL ? given : "200", NULL, 10), errors = 0, answers = 0;
    static struct work works[THREADS];
    pthread_t threads[THREADS];
    globset_glob *glob = glob_of("*a*b*c", 0);
    globset_set *set = set_of(globs, 5);
    for (int i = 0; i < THREADS; i++) {
        works[i].caller.state = (seed + 1) * 1000003 + (uint64_t)i * 7919 + 1;
        works[i].caller.objects[0] = glob;
        works[i].caller.objects[1] = set;
        works[i].rounds = (rounds + THREADS - 1) / THREADS;
        CHECK(pthread_create(&threads[i], NULL, run, &works[i]) == 0);
    }
    for (int i = 0; i < THREADS; i++) {
        CHECK(pthread_join(threads[i], NULL) == 0);
        errors += works[i].caller.errors;
        answers += works[i].caller.answers;
    }
    globset_glob_free(glob);
    globset_set_free(set);
    printf("random: passed, %ld rounds, %ld answers and %ld errors\n", rounds, answers, errors);
    return 0;
}
