/* For `reading.py`, loaded before the C library: each read of a book takes PAUSE microseconds; and in its reading from the front on with the number
 * SHORT, counted from 1, nothing comes from the place END on. */
#define _GNU_SOURCE
#include <dlfcn.h>
#include <stdlib.h>
#include <sys/types.h>
#include <unistd.h>

static long number(const char *name)
{
    const char *text = getenv(name);
    return text ? atol(text) : 0;
}

static ssize_t slowly(const char *name, int file, void *to, size_t room, off64_t at)
{
    static long reading;
    ssize_t (*real)(int, void *, size_t, off64_t) = dlsym(RTLD_NEXT, name);
    reading += at == 0;
    if (reading == number("SHORT") && at >= number("END"))
        return 0;
    usleep(number("PAUSE"));
    return real(file, to, room, at);
}

ssize_t pread(int file, void *to, size_t room, off_t at)
{
    return slowly("pread", file, to, room, at);
}

ssize_t pread64(int file, void *to, size_t room, off64_t at)
{
    return slowly("pread64", file, to, room, at);
}
