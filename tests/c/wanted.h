/* Shared code of the C programs of tests/c: comparisons, limits, and memory between two pages that can't be accessed.
 * TEST is the name of the program. */
#ifndef CAPN_TESTS_WANTED_H
#define CAPN_TESTS_WANTED_H
#include "usual.h"
#include <stdio.h>
#include <stdlib.h>
#include <string.h>
#include <sys/mman.h>

static int failed;

static void want(const char *what, uint64_t got, uint64_t wanted) {
    if (got == wanted) return;
    failed++;
    printf("%s: %s: %llu, wanted %llu\n", TEST, what, (unsigned long long)got, (unsigned long long)wanted);
}

enum { PAGE = 4096, PAGES = 24, ALL_PAGES = PAGE * PAGES };

/* Allocates ALL_PAGES bytes between two pages that can't be accessed. */
static inline uint8_t *between_pages(void) {
    uint8_t *all = mmap(NULL, ALL_PAGES + 2 * PAGE, PROT_NONE, MAP_PRIVATE | MAP_ANONYMOUS, -1, 0);
    if (all == MAP_FAILED || mprotect(all + PAGE, ALL_PAGES, PROT_READ | PROT_WRITE)) exit(2);
    return all + PAGE;
}

/* Returns the last `size` bytes of a block from between_pages. The page after them can't be accessed. */
static inline uint8_t *at_end(uint8_t *pages, size_t size) { return pages + ALL_PAGES - size; }

/* Decodes the hexadecimal bytes at the end of a line. Writes them to the end of a block from between_pages, before a
 * page that can't be accessed. Returns null if the bytes don't fit. */
static inline uint8_t *bytes_at_end(const char *line, uint8_t *pages, size_t *size) {
    const char *digits = strrchr(line, ' ');
    digits = digits ? digits + 1 : line;
    *size = strspn(digits, "0123456789abcdef") / 2;
    if (*size > ALL_PAGES) return NULL;
    uint8_t *bytes = at_end(pages, *size);
    for (size_t i = 0; i < *size; i++) {
        unsigned byte;
        sscanf(digits + 2 * i, "%2x", &byte);
        bytes[i] = (uint8_t)byte;
    }
    return bytes;
}
#endif
