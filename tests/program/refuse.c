/* Preloaded, it refuses the growth number REFUSE_AT (from 1), and leaves the file REFUSE_MARK when it did.
   Programs built from this repository take their memory from malloc, calloc, realloc and aligned_alloc. */
#define _GNU_SOURCE
#include <dlfcn.h>
#include <errno.h>
#include <fcntl.h>
#include <stdlib.h>
#include <unistd.h>

static long calls;
static long at = -1;

static int refused(void)
{
    if (at < 0) {
        const char *text = getenv("REFUSE_AT");
        at = text ? atol(text) : 0;
    }
    if (__atomic_add_fetch(&calls, 1, __ATOMIC_SEQ_CST) != at)
        return 0;
    const char *mark = getenv("REFUSE_MARK");
    if (mark) {
        int fd = open(mark, O_CREAT | O_WRONLY, 0600);
        if (fd >= 0)
            close(fd);
    }
    errno = ENOMEM;
    return 1;
}

extern void *__libc_malloc(size_t);
extern void *__libc_calloc(size_t, size_t);
extern void *__libc_realloc(void *, size_t);
extern void *__libc_memalign(size_t, size_t);

void *malloc(size_t n) { return refused() ? NULL : __libc_malloc(n); }
void *calloc(size_t n, size_t m) { return refused() ? NULL : __libc_calloc(n, m); }
void *realloc(void *p, size_t n) { return refused() ? NULL : __libc_realloc(p, n); }
void *aligned_alloc(size_t a, size_t n) { return refused() ? NULL : __libc_memalign(a, n); }
