/* Loaded before a process (LD_PRELOAD): counts its calls of memcpy and memmove and their bytes, and prints them to standard error at the
 * end. Copies that the compiler writes out in place, the short ones, are not seen. */
#include <stdint.h>
#include <stdio.h>
#include <stddef.h>

static uint64_t copies, bytes;

void *memmove(void *to, const void *from, size_t n)
{
    uint8_t *t = to;
    const uint8_t *f = from;
    copies++;
    bytes += n;
    if (t <= f)
        for (size_t i = 0; i < n; i++)
            t[i] = f[i];
    else
        for (size_t i = n; i > 0; i--)
            t[i - 1] = f[i - 1];
    return to;
}

void *memcpy(void *restrict to, const void *restrict from, size_t n)
{
    return memmove(to, from, n);
}

__attribute__((destructor)) static void print(void)
{
    fprintf(stderr, "%llu %llu\n", (unsigned long long)copies, (unsigned long long)bytes);
}
