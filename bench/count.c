/*
 * Counts the bytes that a program fills and copies by calls of memset, memcpy and memmove.
 *
 * It is loaded before the C library (LD_PRELOAD) and does the work itself, so each such call of the program comes here: those that the program
 * spells, and those that the compiler makes of whole values. A fill or a copy that the compiler wrote out as moves of registers isn't counted,
 * nor is what the C library does within itself. As the program ends, the two sums go to standard error, in one line. A program with threads
 * would lose some.
 *
 * The loops go byte by byte. The compiler must be told to leave them so (-fno-tree-loop-distribute-patterns): it would call memset in memset.
 */
#include <stddef.h>
#include <stdint.h>
#include <stdio.h>
#include <string.h>

static unsigned long filled;
static unsigned long copied;

void *memset(void *into, int value, size_t count)
{
    unsigned char *to = into;

    filled += count;
    for (size_t at = 0; at < count; at++)
        to[at] = (unsigned char)value;
    return into;
}

void *memmove(void *into, const void *from, size_t count)
{
    unsigned char *to = into;
    const unsigned char *source = from;

    copied += count;
    if ((uintptr_t)to <= (uintptr_t)source)
        for (size_t at = 0; at < count; at++)
            to[at] = source[at];
    else
        for (size_t at = count; at > 0; at--)
            to[at - 1] = source[at - 1];
    return into;
}

void *memcpy(void *into, const void *from, size_t count)
{
    return memmove(into, from, count);
}

__attribute__((destructor)) static void tell(void)
{
    fprintf(stderr, "filled %lu copied %lu\n", filled, copied);
}
