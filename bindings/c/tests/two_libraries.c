/* Two libraries in one program: that of the header, and another one with an allocator that counts
 * (counting_allocator.c), whose functions begin with `other_`. */
#include "objects.h"

int other_globset_builder_new(globset_builder **builder);
void other_globset_builder_free(globset_builder *builder);
uint32_t other_globset_version(void);
long other_globset_blocks(void);

int main(void) {
    static const char *const globs[] = {"*.c"};
    globset_set *set = set_of(globs, 1);
    globset_builder *builder;
    CHECK(other_globset_blocks() == 0 && other_globset_version() == globset_version());
    CHECK(other_globset_builder_new(&builder) == GLOBSET_OK && other_globset_blocks() > 0);
    CHECK(globset_set_is_match(set, "a.c", 3) == 1);
    other_globset_builder_free(builder);
    CHECK(other_globset_blocks() == 0);
    globset_set_free(set);
    puts("two_libraries: passed");
    return 0;
}
