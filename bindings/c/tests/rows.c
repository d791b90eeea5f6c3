/* Eight threads ask one set that needs an automaton, and so keeps caches of rows that its callers use in turn, until they have
 * used one so often that it is published. Thread sanitizers do not see the locked steps by which a call takes a cache, as they
 * are in the library: this is run without, and under memcheck. */
#include "objects.h"

#include <pthread.h>
#include <stdio.h>

enum { THREADS = 8, ROUNDS = 4000, WORDS = 30 };

/* Three letters each, in order: the glob of a word has a star around each letter. */
static char words[WORDS][4];
static globset_set *set;

/* Fills the words with letters that differ from word to word. */
static void make_words(void) {
    for (int i = 0; i < WORDS; i++) {
        words[i][0] = (char)('a' + i % 26);
        words[i][1] = (char)('a' + (i * 7 + 3) % 26);
        words[i][2] = (char)('a' + (i * 11 + 5) % 26);
    }
}

static globset_set *set_of_words(void) {
    static char texts[WORDS][8];
    const char *globs[WORDS];
    for (int i = 0; i < WORDS; i++) {
        snprintf(texts[i], sizeof texts[i], "*%c*%c*%c*", words[i][0], words[i][1], words[i][2]);
        globs[i] = texts[i];
    }
    return set_of(globs, WORDS);
}

/* Whether a path has the letters of some word in its order. */
static int has_word(const char *path) {
    for (int i = 0; i < WORDS; i++) {
        const char *letter = words[i];
        for (const char *at = path; *at && *letter; at++) letter += *at == *letter;
        if (!*letter) return 1;
    }
    return 0;
}

static void *ask(void *shift) {
    for (int round = 0; round < ROUNDS; round++) {
        int letter = round + *(int *)shift;
        char path[32];
        snprintf(path, sizeof path, "%c%c/%c%c.%d", 'a' + letter % 26, 'a' + letter * 3 % 26, 'a' + letter * 5 % 26,
                 'a' + letter * 7 % 26, round % 100);
        CHECK(globset_set_is_match(set, TEXT(path)) == has_word(path));
    }
    return NULL;
}

int main(void) {
    static int shifts[THREADS];
    pthread_t threads[THREADS];
    make_words();
    set = set_of_words();
    for (int i = 0; i < THREADS; i++) {
        shifts[i] = i;
        CHECK(pthread_create(&threads[i], NULL, ask, &shifts[i]) == 0);
    }
    for (int i = 0; i < THREADS; i++) CHECK(pthread_join(threads[i], NULL) == 0);
    globset_set_free(set);
    puts("rows: passed");
    return 0;
}
