/* This library is preloaded into a program. It uses 1 MiB of the program's stack before the program begins. The stack
 * then has enough memory, even if the heap takes all other memory later. */
#include <string.h>

__attribute__((constructor, noinline)) static void take_stack(void)
{
    char taken[1 << 20];
    memset(taken, 1, sizeof taken);
    __asm__ volatile("" : : "r"(taken) : "memory");
}
