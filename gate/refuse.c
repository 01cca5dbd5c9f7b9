/* Loaded before a program, refuses one of its allocations: the one with the number in REFUSE, counted from 1.
   Where it is reached, the file named in REFUSED is made. */
#define _GNU_SOURCE
#include <dlfcn.h>
#include <errno.h>
#include <fcntl.h>
#include <stdatomic.h>
#include <stddef.h>
#include <stdlib.h>
#include <unistd.h>

static atomic_long met;
static long chosen = -1;

__attribute__((constructor)) static void choose(void) {
    const char *number = getenv("REFUSE");
    chosen = number ? atol(number) : 0;
}

static int refuses(void) {
    if (chosen <= 0 || atomic_fetch_add(&met, 1) + 1 != chosen) {
        return 0;
    }
    const char *file = getenv("REFUSED");
    if (file) {
        int handle = open(file, O_CREAT | O_WRONLY, 0644);
        if (handle >= 0) {
            close(handle);
        }
    }
    errno = ENOMEM;
    return 1;
}

extern void *__libc_malloc(size_t size);
extern void *__libc_calloc(size_t count, size_t size);
extern void *__libc_realloc(void *block, size_t size);
extern void *__libc_memalign(size_t align, size_t size);

void *malloc(size_t size) {
    return refuses() ? NULL : __libc_malloc(size);
}

void *calloc(size_t count, size_t size) {
    return refuses() ? NULL : __libc_calloc(count, size);
}

void *realloc(void *block, size_t size) {
    return refuses() ? NULL : __libc_realloc(block, size);
}

void *aligned_alloc(size_t align, size_t size) {
    return refuses() ? NULL : __libc_memalign(align, size);
}

int posix_memalign(void **block, size_t align, size_t size) {
    if (refuses()) {
        return ENOMEM;
    }
    *block = __libc_memalign(align, size);
    return *block ? 0 : ENOMEM;
}
