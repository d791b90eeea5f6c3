/* example.c: prints the lines of standard input that match one of the globs.
 *
 *     cc example.c $(pkg-config --cflags --libs globset) -o example
 *     find . -type f | cut -c 3- | ./example '*.c' 'src/lib?.h'
 *     find . -type f | cut -c 3- | ./example -f FILE
 *
 * With -f the globs are the lines of a file. The exit status is 0 if a line matched, 1 if none did, and 2 after an
 * error. */
#define _POSIX_C_SOURCE 200809L
#include <globset.h>

#include <stdbool.h>
#include <stdio.h>
#include <stdlib.h>
#include <string.h>
#include <sys/types.h>

enum { MATCHED = 0, NONE_MATCHED = 1, FAILED = 2 };

/* Globs, as globset_set_new takes them. */
struct globs {
    char **texts;
    size_t *lengths;
    size_t count, capacity;
};

static void free_globs(struct globs *globs) {
    for (size_t i = 0; i < globs->count; i++) free(globs->texts[i]);
    free(globs->texts);
    free(globs->lengths);
}

static bool grow(struct globs *globs) {
    size_t capacity = globs->capacity == 0 ? 16 : globs->capacity * 2;
    char **texts = realloc(globs->texts, capacity * sizeof *texts);
    if (texts == NULL) return false;
    globs->texts = texts;
    size_t *lengths = realloc(globs->lengths, capacity * sizeof *lengths);
    if (lengths == NULL) return false;
    globs->lengths = lengths;
    globs->capacity = capacity;
    return true;
}

/* Adds a copy of a text. */
static bool add(struct globs *globs, const char *text, size_t length) {
    if (globs->count == globs->capacity && !grow(globs)) return false;
    char *copy = malloc(length + 1);
    if (copy == NULL) return false;
    memcpy(copy, text, length);
    globs->texts[globs->count] = copy;
    globs->lengths[globs->count] = length;
    globs->count++;
    return true;
}

/* Reads the next line of a file without its end. Returns false at the end of the file and after an error. */
static bool read_line(FILE *file, char **line, size_t *capacity, size_t *length) {
    ssize_t read = getline(line, capacity, file);
    if (read < 0) return false;
    *length = (size_t)read;
    if (*length > 0 && (*line)[*length - 1] == '\n') --*length;
    return true;
}

/* Adds each line of a file. */
static bool add_lines(struct globs *globs, const char *name) {
    FILE *file = fopen(name, "r");
    if (file == NULL) {
        perror(name);
        return false;
    }
    char *line = NULL;
    size_t capacity = 0, length;
    bool added = true;
    while (added && read_line(file, &line, &capacity, &length)) added = add(globs, line, length);
    bool complete = added && feof(file);
    if (!complete) perror(name);
    free(line);
    fclose(file);
    return complete;
}

/* Says why the glob number `index` was refused. */
static void say_refused(const struct globs *globs, size_t index, const globset_error *error, int result) {
    char text[1000];
    if (result == GLOBSET_EGLOB &&
        globset_error_text(error, globs->texts[index], globs->lengths[index], text, sizeof text, NULL) == GLOBSET_OK) {
        fprintf(stderr, "example: glob %zu: %s\n", index + 1, text);
    } else {
        fprintf(stderr, "example: glob %zu: %s\n", index + 1, globset_status_text(result));
    }
}

static globset_searcher *searcher_of(const struct globs *globs) {
    globset_set *set;
    globset_searcher *searcher;
    globset_error error;
    size_t index;
    int result =
        globset_set_new((const char *const *)globs->texts, globs->lengths, NULL, globs->count, &error, &index, &set);
    if (result != GLOBSET_OK) {
        say_refused(globs, index, &error, result);
        return NULL;
    }
    result = globset_searcher_new(set, &searcher);
    if (result != GLOBSET_OK) fprintf(stderr, "example: %s\n", globset_status_text(result));
    globset_set_free(set);
    return searcher;
}

/* Prints the lines of standard input that match. */
static int print_matching(globset_searcher *searcher) {
    char *line = NULL;
    size_t capacity = 0, length;
    int status = NONE_MATCHED;
    while (status != FAILED && read_line(stdin, &line, &capacity, &length)) {
        /* The answer is 1 or 0: a searcher that is not null answers every path. */
        if (globset_searcher_is_match(searcher, line, length) != 1) continue;
        status = MATCHED;
        line[length] = '\n';
        if (fwrite(line, 1, length + 1, stdout) != length + 1) status = FAILED;
    }
    if (!feof(stdin) || fflush(stdout) != 0) status = FAILED;
    if (status == FAILED) perror("example");
    free(line);
    return status;
}

int main(int argc, char **argv) {
    struct globs globs = {NULL, NULL, 0, 0};
    int status = FAILED;
    bool read;
    if (argc < 2 || (strcmp(argv[1], "-f") == 0 && argc != 3)) {
        fputs("usage: example GLOB.. | example -f FILE\n", stderr);
        return FAILED;
    }
    if (strcmp(argv[1], "-f") == 0) {
        read = add_lines(&globs, argv[2]);
    } else {
        read = true;
        for (int i = 1; read && i < argc; i++) read = add(&globs, argv[i], strlen(argv[i]));
        if (!read) perror("example");
    }
    globset_searcher *searcher = read ? searcher_of(&globs) : NULL;
    if (searcher != NULL) status = print_matching(searcher);
    globset_searcher_free(searcher);
    free_globs(&globs);
    return status;
}
