/* For `growths.py`, loaded before the C library: the REFUSE-th time that the program asks for memory, it gets none. At the end the number of times
 * that it asked is written to descriptor REFUSE_TOLD. What the C library itself takes, for its streams and threads, is given. */
#define _GNU_SOURCE
#include <dlfcn.h>
#include <errno.h>
#include <stdatomic.h>
#include <stdio.h>
#include <stdlib.h>

static atomic_ulong asked;
static unsigned long refused;

__attribute__((constructor)) static void begin(void)
{
    refused = strtoul(getenv("REFUSE") ? getenv("REFUSE") : "0", 0, 10);
    asked = 0;
}

__attribute__((destructor)) static void end(void)
{
    if (getenv("REFUSE_TOLD"))
        dprintf(atoi(getenv("REFUSE_TOLD")), "%lu", asked);
}

static int is_refused(void)
{
    return ++asked == refused;
}

static void *next(const char *name)
{
    return dlsym(RTLD_NEXT, name);
}

void *malloc(size_t size)
{
    static void *(*real)(size_t);
    if (!real)
        real = next("malloc");
    if (is_refused()) {
        errno = ENOMEM;
        return 0;
    }
    return real(size);
}

void *realloc(void *old, size_t size)
{
    static void *(*real)(void *, size_t);
    if (!real)
        real = next("realloc");
    if (is_refused()) {
        errno = ENOMEM;
        return 0;
    }
    return real(old, size);
}

int posix_memalign(void **to, size_t align, size_t size)
{
    static int (*real)(void **, size_t, size_t);
    if (!real)
        real = next("posix_memalign");
    return is_refused() ? ENOMEM : real(to, align, size);
}

void *aligned_alloc(size_t align, size_t size)
{
    static void *(*real)(size_t, size_t);
    if (!real)
        real = next("aligned_alloc");
    return is_refused() ? 0 : real(align, size);
}
