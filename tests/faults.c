/* For `LD_PRELOAD`: the call number FAIL_AT of the kind FAIL_KIND (read, open, write or memory) fails, and a byte goes to the descriptor
   FAIL_TOLD then; where FAIL_ON is set, so does each call of the kind behind it. Calls before `main` are not counted; where
   FAIL_BEHIND_WRITE is set, none before the first write either. */
#define _GNU_SOURCE
#include <dlfcn.h>
#include <errno.h>
#include <stdlib.h>
#include <string.h>
#include <sys/types.h>
#include <sys/uio.h>
#include <unistd.h>

static int started;

static int fails(const char *kind)
{
    static unsigned long calls, at;
    static const char *wanted;
    static int on;
    if (!started) {
        started = !strcmp(kind, "write");
        return 0;
    }
    if (!wanted) {
        wanted = getenv("FAIL_KIND");
        at = wanted ? strtoul(getenv("FAIL_AT"), 0, 10) : 0;
        on = getenv("FAIL_ON") != 0;
        wanted = wanted ? wanted : "";
    }
    if (strcmp(kind, wanted) || ++calls < at)
        return 0;
    if (calls > at)
        return on;
    ssize_t (*told)(int, const void *, size_t) = dlsym(RTLD_NEXT, "write");
    return told(atoi(getenv("FAIL_TOLD")), "!", 1) == 1;
}

#define FAULTY(result, name, kind, error, value, parameters, arguments)                             \
    result name parameters                                                                         \
    {                                                                                              \
        static result(*next) parameters;                                                           \
        if (!next)                                                                                 \
            next = dlsym(RTLD_NEXT, #name);                                                        \
        if (fails(kind))                                                                           \
            return errno = error, value;                                                           \
        return next arguments;                                                                     \
    }

FAULTY(ssize_t, pread, "read", EIO, -1, (int fd, void *into, size_t count, off_t at), (fd, into, count, at))
FAULTY(ssize_t, pread64, "read", EIO, -1, (int fd, void *into, size_t count, off64_t at), (fd, into, count, at))
FAULTY(ssize_t, read, "read", EIO, -1, (int fd, void *into, size_t count), (fd, into, count))
FAULTY(ssize_t, write, "write", ENOSPC, -1, (int fd, const void *from, size_t count), (fd, from, count))
FAULTY(ssize_t, writev, "write", ENOSPC, -1, (int fd, const struct iovec *from, int count), (fd, from, count))
FAULTY(int, open, "open", EIO, -1, (const char *name, int flags, mode_t mode), (name, flags, mode))
FAULTY(int, open64, "open", EIO, -1, (const char *name, int flags, mode_t mode), (name, flags, mode))
FAULTY(int, openat, "open", EIO, -1, (int folder, const char *name, int flags, mode_t mode), (folder, name, flags, mode))
FAULTY(int, openat64, "open", EIO, -1, (int folder, const char *name, int flags, mode_t mode), (folder, name, flags, mode))

/* glibc's own, which `dlsym` may need before it can find another. */
void *__libc_malloc(size_t size);
void *__libc_calloc(size_t count, size_t size);
void *__libc_realloc(void *old, size_t size);
void *__libc_memalign(size_t alignment, size_t size);

void *malloc(size_t size)
{
    return fails("memory") ? errno = ENOMEM, (void *)0 : __libc_malloc(size);
}

void *calloc(size_t count, size_t size)
{
    return fails("memory") ? errno = ENOMEM, (void *)0 : __libc_calloc(count, size);
}

void *realloc(void *old, size_t size)
{
    return fails("memory") ? errno = ENOMEM, (void *)0 : __libc_realloc(old, size);
}

void *aligned_alloc(size_t alignment, size_t size)
{
    return fails("memory") ? errno = ENOMEM, (void *)0 : __libc_memalign(alignment, size);
}

__attribute__((constructor)) static void start(void)
{
    started = getenv("FAIL_BEHIND_WRITE") == 0;
}
