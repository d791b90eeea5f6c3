/* Threads that ask one set, or searchers of it, about paths: how many calls a second they make together.
 *
 * threads FILE MILLISECONDS RUNS: FILE has the globs, one in each line, an empty line, and the paths. A line before the
 * empty one that begins with `-` is an option of all globs after it. For each call, and 1, 2 and 4 threads, it prints a
 * line: the call, the number of threads, the calls a second of the fastest of the runs, and the calls a second of
 * processor time. In each run a new set is asked for a third of the time before calls are counted. Every answer is
 * compared with that of a searcher which one thread asked before. */
#include "globset.h"

#include <errno.h>
#include <pthread.h>
#include <stdatomic.h>
#include <stdio.h>
#include <stdlib.h>
#include <string.h>
#include <time.h>

enum { MOST_THREADS = 4, BATCH = 64, CALLS = 3 };
enum state { WARMING, COUNTING, STOPPING };

static const int thread_counts[] = {1, 2, MOST_THREADS};

struct lines {
    char **texts;
    size_t *lengths;
    uint32_t *options;
    size_t count;
};

static struct lines globs, paths;
static unsigned char *answers;
static atomic_int state;

static void fail(const char *what) {
    fprintf(stderr, "threads: %s\n", what);
    exit(2);
}

static void check(int status) {
    if (status < 0) fail(globset_status_text(status));
}

static void *room(size_t count, size_t size) {
    void *found = calloc(count + 1, size);
    if (found == NULL) fail("memory ran out");
    return found;
}

static double seconds(clockid_t clock) {
    struct timespec time;
    if (clock_gettime(clock, &time) != 0) fail("a clock cannot be read");
    return (double)time.tv_sec + (double)time.tv_nsec / 1e9;
}

/* ---- The calls */

struct asker {
    const globset_set *set;
    globset_searcher *searcher;
};

static int set_is_match(struct asker *asker, const char *path, size_t length) {
    return globset_set_is_match(asker->set, path, length);
}

static int searcher_is_match(struct asker *asker, const char *path, size_t length) {
    return globset_searcher_is_match(asker->searcher, path, length);
}

static int searcher_matches(struct asker *asker, const char *path, size_t length) {
    const size_t *indexes;
    size_t count;
    int status = globset_searcher_find(asker->searcher, path, length, &indexes, &count);
    return status == GLOBSET_OK ? count > 0 : status;
}

static const struct {
    const char *name;
    int (*ask)(struct asker *, const char *, size_t);
} calls[CALLS] = {
    {"globset_set_is_match", set_is_match},
    {"globset_searcher_is_match", searcher_is_match},
    {"globset_searcher_find", searcher_matches},
};

/* ---- Threads */

struct asking {
    pthread_t thread;
    const globset_set *set;
    int call;
    size_t first_path;
    double rate, processor_rate;
};

static void ask_batch(struct asker *asker, int call, size_t *at) {
    for (int i = 0; i < BATCH; i++) {
        int answer = calls[call].ask(asker, paths.texts[*at], paths.lengths[*at]);
        check(answer);
        if (answer != answers[*at]) fail("a thread gets another answer");
        if (++*at == paths.count) *at = 0;
    }
}

static void *run_thread(void *given) {
    struct asking *asking = given;
    struct asker asker = {asking->set, NULL};
    size_t at = asking->first_path, count = 0;
    check(globset_searcher_new(asking->set, &asker.searcher));
    while (atomic_load(&state) == WARMING) ask_batch(&asker, asking->call, &at);
    double start = seconds(CLOCK_MONOTONIC), processor = seconds(CLOCK_THREAD_CPUTIME_ID);
    do {
        ask_batch(&asker, asking->call, &at);
        count += BATCH;
    } while (atomic_load(&state) == COUNTING);
    asking->rate = (double)count / (seconds(CLOCK_MONOTONIC) - start);
    asking->processor_rate = (double)count / (seconds(CLOCK_THREAD_CPUTIME_ID) - processor);
    globset_searcher_free(asker.searcher);
    return NULL;
}

static globset_set *new_set(void) {
    globset_set *set;
    check(globset_set_new((const char *const *)globs.texts, globs.lengths, globs.options, globs.count, NULL, NULL, &set));
    return set;
}

static void wait_milliseconds(long milliseconds) {
    struct timespec rest = {milliseconds / 1000, milliseconds % 1000 * 1000000};
    while (nanosleep(&rest, &rest) != 0) {
        if (errno != EINTR) fail("waiting failed");
    }
}

/* Writes the calls a second of all threads of one run. */
static void run(int call, int threads, long milliseconds, double *rate, double *processor_rate) {
    struct asking asking[MOST_THREADS];
    globset_set *set = new_set();
    atomic_store(&state, WARMING);
    for (int i = 0; i < threads; i++) {
        asking[i].set = set;
        asking[i].call = call;
        asking[i].first_path = paths.count / (size_t)threads * (size_t)i;
        if (pthread_create(&asking[i].thread, NULL, run_thread, &asking[i]) != 0) fail("a thread cannot be started");
    }
    wait_milliseconds(milliseconds / 3);
    atomic_store(&state, COUNTING);
    wait_milliseconds(milliseconds);
    atomic_store(&state, STOPPING);
    *rate = *processor_rate = 0;
    for (int i = 0; i < threads; i++) {
        if (pthread_join(asking[i].thread, NULL) != 0) fail("a thread cannot be joined");
        *rate += asking[i].rate;
        *processor_rate += asking[i].processor_rate;
    }
    globset_set_free(set);
}

static void measure(int call, int threads, long milliseconds, long runs) {
    double most = 0, processor_most = 0;
    for (long i = 0; i < runs; i++) {
        double rate, processor_rate;
        run(call, threads, milliseconds, &rate, &processor_rate);
        if (rate > most) most = rate;
        if (processor_rate > processor_most) processor_most = processor_rate;
    }
    printf("%s\t%d\t%.0f\t%.0f\n", calls[call].name, threads, most, processor_most);
    fflush(stdout);
}

/* ---- Input */

static char *read_file(const char *name) {
    FILE *file = fopen(name, "rb");
    if (file == NULL || fseek(file, 0, SEEK_END) != 0) fail("the file cannot be opened");
    long size = ftell(file);
    if (size < 0) fail("the file cannot be read");
    rewind(file);
    char *text = room((size_t)size, 1);
    if (fread(text, 1, (size_t)size, file) != (size_t)size) fail("the file cannot be read");
    fclose(file);
    return text;
}

static void take_room(struct lines *lines, size_t count) {
    lines->texts = room(count, sizeof *lines->texts);
    lines->lengths = room(count, sizeof *lines->lengths);
    lines->options = room(count, sizeof *lines->options);
}

static void add(struct lines *lines, char *text, uint32_t options) {
    lines->texts[lines->count] = text;
    lines->lengths[lines->count] = strlen(text);
    lines->options[lines->count++] = options;
}

/* Returns the bit of an option. */
static uint32_t option(const char *text) {
    static const char letters[] = "isbeuw";
    const char *found = text[1] != '\0' && text[2] == '\0' ? strchr(letters, text[1]) : NULL;
    if (found == NULL) fail("an option is unknown");
    return (uint32_t)1 << (found - letters);
}

static void parse(char *text) {
    size_t count = 0;
    uint32_t options = 0;
    int are_paths = 0;
    for (char *at = text; *at != '\0'; at++) count += *at == '\n';
    take_room(&globs, count);
    take_room(&paths, count);
    for (char *end; (end = strchr(text, '\n')) != NULL; text = end + 1) {
        *end = '\0';
        if (are_paths) add(&paths, text, 0);
        else if (*text == '\0') are_paths = 1;
        else if (*text == '-') options |= option(text);
        else add(&globs, text, options);
    }
}

static void answer_all(void) {
    globset_searcher *searcher;
    globset_set *set = new_set();
    check(globset_searcher_new(set, &searcher));
    answers = room(paths.count, 1);
    for (size_t i = 0; i < paths.count; i++) {
        int answer = globset_searcher_is_match(searcher, paths.texts[i], paths.lengths[i]);
        check(answer);
        answers[i] = (unsigned char)answer;
    }
    globset_searcher_free(searcher);
    globset_set_free(set);
}

int main(int count, char **arguments) {
    if (count != 4) fail("threads FILE MILLISECONDS RUNS");
    parse(read_file(arguments[1]));
    if (paths.count == 0) fail("there are no paths");
    answer_all();
    for (int call = 0; call < CALLS; call++) {
        for (size_t i = 0; i < sizeof thread_counts / sizeof *thread_counts; i++)
            measure(call, thread_counts[i], strtol(arguments[2], NULL, 10), strtol(arguments[3], NULL, 10));
    }
    return 0;
}
