/* With this allocator, a test can make allocations fail. To use it, link the test with
 * -Wl,--wrap=malloc,--wrap=realloc,--wrap=free. */
#ifndef CAPN_TESTS_REFUSING_H
#define CAPN_TESTS_REFUSING_H
#include <stdlib.h>

void *__real_malloc(size_t size);
void *__real_realloc(void *old, size_t size);
void __real_free(void *block);

/* `left` is the number of allocations that succeed before all others fail (-1 if none fails). `asked` is the number of
 * allocations that were made. `live` is the number of blocks that aren't freed yet. */
static long left = -1, asked, live;

static int refuses(void) {
    asked++;
    if (left == 0) return 1;
    if (left > 0) left--;
    return 0;
}

void *__wrap_malloc(size_t size) {
    void *block = refuses() ? NULL : __real_malloc(size);
    if (block) live++;
    return block;
}

void *__wrap_realloc(void *old, size_t size) {
    void *block = refuses() ? NULL : __real_realloc(old, size);
    if (!old && block) live++;
    return block;
}

void __wrap_free(void *block) {
    if (block) live--;
    __real_free(block);
}
#endif
