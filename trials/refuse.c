/* Loaded before the C library (LD_PRELOAD), this refuses one request for memory of a program: that of the number REFUSE, counted
 * from 1. It then makes the file REFUSED, so that a script knows that there was such a request. */
#define _GNU_SOURCE
#include <dlfcn.h>
#include <errno.h>
#include <fcntl.h>
#include <stdlib.h>
#include <unistd.h>

static long requests;

static int refuses(void)
{
    static long wanted = -1;
    if (wanted < 0) {
        const char *text = getenv("REFUSE");
        wanted = text ? atol(text) : 0;
    }
    if (__atomic_add_fetch(&requests, 1, __ATOMIC_SEQ_CST) != wanted)
        return 0;
    const char *path = getenv("REFUSED");
    if (path) {
        int file = open(path, O_CREAT | O_WRONLY, 0600);
        if (file >= 0)
            close(file);
    }
    errno = ENOMEM;
    return 1;
}

/* The C library's own calls, which never come back here. */
extern void *__libc_malloc(size_t);
extern void *__libc_calloc(size_t, size_t);
extern void *__libc_realloc(void *, size_t);
extern void *__libc_memalign(size_t, size_t);

void *malloc(size_t size) { return refuses() ? NULL : __libc_malloc(size); }

void *calloc(size_t count, size_t size) { return refuses() ? NULL : __libc_calloc(count, size); }

void *realloc(void *old, size_t size) { return refuses() ? NULL : __libc_realloc(old, size); }

void *memalign(size_t alignment, size_t size) { return refuses() ? NULL : __libc_memalign(alignment, size); }

void *aligned_alloc(size_t alignment, size_t size) { return refuses() ? NULL : __libc_memalign(alignment, size); }

int posix_memalign(void **place, size_t alignment, size_t size)
{
    if (refuses())
        return ENOMEM;
    *place = __libc_memalign(alignment, size);
    return *place ? 0 : ENOMEM;
}
