/* For `LD_PRELOAD`: each read of the file whose name ends with `cert` gives from 1 to SHORT_READS bytes, and read FAIL_READ fails. */
#define _GNU_SOURCE
#include <dlfcn.h>
#include <errno.h>
#include <stdlib.h>
#include <stdio.h>
#include <string.h>
#include <unistd.h>

static size_t asked(int fd, size_t count, int *fails)
{
    static unsigned long reads, state = 12345;
    char link[64], name[4096];
    const char *most = getenv("SHORT_READS"), *fail = getenv("FAIL_READ");
    *fails = 0;
    snprintf(link, sizeof link, "/proc/self/fd/%d", fd);
    ssize_t length = readlink(link, name, sizeof name - 1);
    if (!most || length < 4 || memcmp(name + length - 4, "cert", 4))
        return count;
    *fails = fail && ++reads == strtoul(fail, 0, 10);
    state = state * 6364136223846793005UL + 1442695040888963407UL;
    size_t few = 1 + (state >> 33) % strtoul(most, 0, 10);
    return few < count ? few : count;
}

#define SHORTENED(name, offset_type, offset_name)                                                  \
    ssize_t name(int fd, void *into, size_t count, offset_type offset_name)                        \
    {                                                                                              \
        int fails;                                                                                 \
        count = asked(fd, count, &fails);                                                          \
        if (fails)                                                                                 \
            return errno = EIO, -1;                                                                \
        ssize_t (*next)(int, void *, size_t, offset_type) = dlsym(RTLD_NEXT, #name);               \
        return next(fd, into, count, offset_name);                                                 \
    }

SHORTENED(pread, off_t, at)
SHORTENED(pread64, off64_t, at)

ssize_t read(int fd, void *into, size_t count)
{
    int fails;
    count = asked(fd, count, &fails);
    if (fails)
        return errno = EIO, -1;
    ssize_t (*next)(int, void *, size_t) = dlsym(RTLD_NEXT, "read");
    return next(fd, into, count);
}
