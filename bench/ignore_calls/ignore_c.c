/* Prints the paths of standard input that an ignore file does not ignore, by git's rule: bench/ignore measures it.
 *
 * Usage: ignore_c FILE < PATHS. All paths are decided about by one call. */
#include <globset.h>
#include <stdio.h>
#include <stdlib.h>
#include <string.h>

struct text {
    char *bytes;
    size_t length;
};

/* Returns all of a stream, or ends the program. */
static struct text read_all(FILE *file) {
    struct text all = {NULL, 0};
    size_t room = 0;
    size_t count = 1;
    while (file != NULL && count > 0) {
        if (all.length == room) {
            room = room * 2 + 65536;
            all.bytes = realloc(all.bytes, room);
            if (all.bytes == NULL)
                break;
        }
        count = fread(all.bytes + all.length, 1, room - all.length, file);
        all.length += count;
    }
    if (file == NULL || all.bytes == NULL || ferror(file)) {
        perror("ignore_c");
        exit(2);
    }
    return all;
}

/* Takes the line feeds out of a text, and returns where each line ended in what is left. */
static size_t *take_ends(struct text *lines, size_t *count) {
    size_t *ends = malloc((lines->length + 1) * sizeof *ends);
    size_t left = 0;
    *count = 0;
    for (size_t at = 0; ends != NULL && at < lines->length; at++) {
        if (lines->bytes[at] == '\n')
            ends[(*count)++] = left;
        else
            lines->bytes[left++] = lines->bytes[at];
    }
    lines->length = left;
    return ends;
}

int main(int count, char **words) {
    struct text file = read_all(count == 2 ? fopen(words[1], "rb") : NULL);
    struct text paths = read_all(stdin);
    size_t lines = 0;
    size_t *ends = take_ends(&paths, &lines);
    uint8_t *answers = malloc(lines + 1);
    globset_ignore *ignore = NULL;
    if (ends == NULL || answers == NULL || globset_ignore_new(0, &ignore) != GLOBSET_OK ||
        globset_ignore_add_file(ignore, file.bytes, file.length) != GLOBSET_OK ||
        globset_ignore_decide_many(ignore, paths.bytes, paths.length, ends, lines, GLOBSET_BY_GIT, answers) !=
            GLOBSET_OK) {
        fputs("ignore_c: a call failed\n", stderr);
        return 2;
    }
    size_t start = 0;
    for (size_t at = 0; at < lines; start = ends[at++]) {
        if (answers[at] != GLOBSET_IGNORED) {
            fwrite(paths.bytes + start, 1, ends[at] - start, stdout);
            putchar('\n');
        }
    }
    globset_ignore_free(ignore);
    free(answers);
    free(ends);
    free(paths.bytes);
    free(file.bytes);
    return fflush(stdout) == 0 ? 0 : 2;
}
