/* filter_files.c: prints the lines of standard input that match one of the globs, which four threads match.
 *
 *     cc filter_files.c $(pkg-config --cflags --libs globset) -pthread -o filter_files
 *     find * -type f | ./filter_files '*.c' '*.h'
 *
 * The exit status is 0 if a line matched, 1 if none did, and 2 after an error. */
#define _POSIX_C_SOURCE 200809L
#include <errno.h>
#include <globset.h>
#include <pthread.h>
#include <stdio.h>
#include <stdlib.h>
#include <string.h>

enum { THREADS = 4 };

struct line {
    char *text;
    size_t length;
    int answer;
};

static const globset_set *set;
static struct line *lines;
static size_t count;

static void fail(const char *what, const char *why) {
    fprintf(stderr, "filter_files: %s: %s\n", what, why);
    exit(2);
}

/* Asks a searcher of this thread about each fourth line. */
static void *ask(void *first) {
    globset_searcher *searcher;
    int result = globset_searcher_new(set, &searcher);
    for (size_t i = *(size_t *)first; i < count && result >= 0; i += THREADS)
        result = lines[i].answer = globset_searcher_is_match(searcher, lines[i].text, lines[i].length);
    if (result < 0) fail("a thread", globset_status_text(result));
    globset_searcher_free(searcher);
    return NULL;
}

static void read_lines(void) {
    struct line line = {NULL, 0, 0};
    size_t capacity = 0, size = 0;
    for (ssize_t length; (length = getline(&line.text, &size, stdin)) >= 0; size = 0) {
        line.length = (size_t)length;
        if (line.text[length - 1] == '\n') line.text[--line.length] = '\0';
        if (count == capacity) lines = realloc(lines, (capacity = 2 * capacity + 64) * sizeof *lines);
        if (lines == NULL) fail("the input", strerror(ENOMEM));
        lines[count++] = line;
        line.text = NULL;
    }
    if (!feof(stdin)) fail("the input", strerror(errno));
    free(line.text);
}

int main(int argc, char **argv) {
    size_t index = 0, first[THREADS], matched = 0;
    pthread_t threads[THREADS];
    globset_set *made;
    if (argc < 2) fail("usage", "filter_files GLOB..");
    int result = globset_set_new((const char *const *)argv + 1, NULL, NULL, (size_t)argc - 1, NULL, &index, &made);
    if (result != GLOBSET_OK) fail(argv[index + 1], globset_status_text(result));
    set = made;
    read_lines();
    for (size_t i = 0; i < THREADS; i++) {
        first[i] = i;
        if ((result = pthread_create(&threads[i], NULL, ask, &first[i])) != 0) fail("a thread", strerror(result));
    }
    for (size_t i = 0; i < THREADS; i++) pthread_join(threads[i], NULL);
    for (size_t i = 0; i < count; i++) {
        if (lines[i].answer == 1 && ++matched && printf("%s\n", lines[i].text) < 0) fail("the output", strerror(errno));
        free(lines[i].text);
    }
    free(lines);
    globset_set_free(made);
    if (fflush(stdout) != 0) fail("the output", strerror(errno));
    return matched > 0 ? 0 : 1;
}
