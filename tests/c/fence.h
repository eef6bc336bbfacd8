/* Memory between two pages that may not be touched, so that a read or a write outside what was lent stops a test. */
#ifndef FENCE_H
#define FENCE_H

#include <stdint.h>
#include <stdio.h>
#include <stdlib.h>
#include <sys/mman.h>
#include <unistd.h>

struct fenced {
    uint8_t *base;
    size_t size;
};

static struct fenced fence(size_t size)
{
    struct fenced f;
    size_t p = (size_t)sysconf(_SC_PAGESIZE);
    f.size = (size + p - 1) / p * p;
    uint8_t *m = mmap(NULL, f.size + 2 * p, PROT_NONE, MAP_PRIVATE | MAP_ANONYMOUS, -1, 0);
    if (m == MAP_FAILED || mprotect(m + p, f.size, PROT_READ | PROT_WRITE) != 0) {
        perror("mmap");
        exit(1);
    }
    f.base = m + p;
    return f;
}

/* The place of n octets at the end or at the start of fenced memory; of none, the very edge. */
static uint8_t *place(struct fenced f, size_t n, int at_end)
{
    return at_end ? f.base + f.size - n : f.base;
}

static void protect(struct fenced f, int how)
{
    if (mprotect(f.base, f.size, how) != 0) {
        perror("mprotect");
        exit(1);
    }
}

/* Numbers without a pattern. */
static uint64_t seed = 1;

static uint64_t next(void)
{
    seed ^= seed << 13;
    seed ^= seed >> 7;
    seed ^= seed << 17;
    return seed;
}

#endif
