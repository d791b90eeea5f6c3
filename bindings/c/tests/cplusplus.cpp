// The headers as C++.
#include "globset_raw.h"

#include <cstdio>

int main() {
    const char *texts[] = {"*.c", "src/lib?.h"};
    globset_set *set = NULL;
    globset_searcher *searcher = NULL;
    int result = globset_set_new(texts, NULL, NULL, 2, NULL, NULL, &set);
    if (result == GLOBSET_OK) result = globset_searcher_new(set, &searcher);
    if (result == GLOBSET_OK) result = globset_searcher_is_match(searcher, "a.c", 3);
    globset_searcher_free(searcher);
    globset_set_free(set);
    std::puts(globset_status_text(result));
    return result == 1 && globset_version() == GLOBSET_VERSION ? 0 : 1;
}
