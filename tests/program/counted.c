/* This library is preloaded into a program. It counts the program's calls of `malloc` and `realloc`. It writes two
 * numbers of 8 bytes to the file that the variable COUNTED names: the number of calls, and the largest requested size.
 * */
#define _GNU_SOURCE
#include <dlfcn.h>
#include <fcntl.h>
#include <stdint.h>
#include <stdlib.h>
#include <sys/mman.h>

static uint64_t none[2], *figures = none;

__attribute__((constructor)) static void begin(void)
{
    const char *name = getenv("COUNTED");
    int file = name ? open(name, O_RDWR) : -1;
    void *place = file < 0 ? MAP_FAILED : mmap(NULL, sizeof none, PROT_READ | PROT_WRITE, MAP_SHARED, file, 0);
    if (place == MAP_FAILED)
        abort();
    figures = place;
}

static void count(size_t size)
{
    figures[0]++;
    if (figures[1] < size)
        figures[1] = size;
}

void *malloc(size_t size)
{
    static void *(*inner)(size_t);
    if (!inner)
        inner = (void *(*)(size_t))dlsym(RTLD_NEXT, "malloc");
    count(size);
    return inner(size);
}

void *realloc(void *old, size_t size)
{
    static void *(*inner)(void *, size_t);
    if (!inner)
        inner = (void *(*)(void *, size_t))dlsym(RTLD_NEXT, "realloc");
    count(size);
    return inner(old, size);
}
