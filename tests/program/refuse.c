/* This library is preloaded into a program. It makes some allocations of the program fail. The variables REFUSE_FROM
 * and REFUSE_TO are the numbers of the first and the last failing allocation. For each failed allocation, the library
 * writes a byte to the file descriptor in REFUSE_TOLD. */
#define _GNU_SOURCE
#include <dlfcn.h>
#include <stdlib.h>
#include <unistd.h>

static long from = -1, to, seen;
static int told;

static long number(const char *name)
{
    const char *text = getenv(name);
    return text ? strtol(text, NULL, 10) : 0;
}

static int is_refused(void)
{
    if (from < 0) {
        from = number("REFUSE_FROM");
        to = number("REFUSE_TO");
        told = (int)number("REFUSE_TOLD");
    }
    seen++;
    return from <= seen && seen <= to && write(told, "x", 1) == 1;
}

void *malloc(size_t size)
{
    static void *(*inner)(size_t);
    if (!inner)
        inner = (void *(*)(size_t))dlsym(RTLD_NEXT, "malloc");
    return is_refused() ? NULL : inner(size);
}

void *realloc(void *old, size_t size)
{
    static void *(*inner)(void *, size_t);
    if (!inner)
        inner = (void *(*)(void *, size_t))dlsym(RTLD_NEXT, "realloc");
    return is_refused() ? NULL : inner(old, size);
}
