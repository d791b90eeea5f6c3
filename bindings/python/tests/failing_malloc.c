/* Memory that runs out where a test says so. It is linked into the extension module with --wrap=malloc and --wrap=realloc.
 *
 * While the environment variable GLOBSET_FAILED is a number, allocation number so many fails, and with a number below 0 that
 * one and all after it. Allocations are counted from the moment on at which the variable was set after it was empty. */
#include <stdlib.h>

void *__real_malloc(size_t size);
void *__real_realloc(void *at, size_t size);
void *__wrap_malloc(size_t size);
void *__wrap_realloc(void *at, size_t size);

static long count;

static int fails(void) {
    const char *number = getenv("GLOBSET_FAILED");
    if (!number || !*number) {
        count = 0;
        return 0;
    }
    long failed = strtol(number, NULL, 10);
    count++;
    return count == failed || (failed < 0 && count >= -failed);
}

void *__wrap_malloc(size_t size) { return fails() ? NULL : __real_malloc(size); }

void *__wrap_realloc(void *at, size_t size) { return fails() ? NULL : __real_realloc(at, size); }
