/* Refuses one call of a program that it is loaded into (LD_PRELOAD), or all of its kind from one on, and tells that it did.

   REFUSE says which calls are counted, from 1: alloc (malloc, calloc and realloc), load (open and read) or put (write). REFUSE_AT is the number of the
   call that is refused; with REFUSE_ON all later ones are refused too. With `short` in place of a kind each write takes one byte. Where something was
   refused, one byte goes to the descriptor REFUSE_FD. */
#define _GNU_SOURCE
#include <dlfcn.h>
#include <errno.h>
#include <fcntl.h>
#include <stdarg.h>
#include <stdatomic.h>
#include <stdlib.h>
#include <string.h>
#include <sys/syscall.h>
#include <unistd.h>

static const char *kind = "";
static long first = 0;
static int goes_on = 0, told = -1;
static atomic_long seen = 0;

void *__libc_malloc(size_t);
void *__libc_calloc(size_t, size_t);
void *__libc_realloc(void *, size_t);

__attribute__((constructor)) static void begin(void) {
    const char *at = getenv("REFUSE_AT"), *fd = getenv("REFUSE_FD");
    first = at ? atol(at) : 0;
    told = fd ? atoi(fd) : -1;
    goes_on = getenv("REFUSE_ON") != NULL;
    if (getenv("REFUSE"))
        kind = getenv("REFUSE");
}

/* Whether this call, one of these, is refused. */
static int refused(const char *which) {
    if (strcmp(kind, which) != 0)
        return 0;
    long number = atomic_fetch_add(&seen, 1) + 1;
    int is = number == first || (goes_on && number > first);
    if (is && told >= 0)
        syscall(SYS_write, told, "r", 1);
    return is;
}

void *malloc(size_t size) {
    if (!refused("alloc"))
        return __libc_malloc(size);
    errno = ENOMEM;
    return NULL;
}

void *calloc(size_t count, size_t size) {
    if (!refused("alloc"))
        return __libc_calloc(count, size);
    errno = ENOMEM;
    return NULL;
}

void *realloc(void *old, size_t size) {
    if (!refused("alloc"))
        return __libc_realloc(old, size);
    errno = ENOMEM;
    return NULL;
}

static int open_at(int folder, const char *path, int flags, mode_t mode) {
    if (!refused("load"))
        return syscall(SYS_openat, folder, path, flags, mode);
    errno = EIO;
    return -1;
}

int open(const char *path, int flags, ...) {
    va_list more;
    va_start(more, flags);
    mode_t mode = va_arg(more, mode_t);
    va_end(more);
    return open_at(AT_FDCWD, path, flags, mode);
}

int open64(const char *path, int flags, ...) __attribute__((alias("open")));

int openat(int folder, const char *path, int flags, ...) {
    va_list more;
    va_start(more, flags);
    mode_t mode = va_arg(more, mode_t);
    va_end(more);
    return open_at(folder, path, flags, mode);
}

ssize_t read(int fd, void *bytes, size_t count) {
    if (!refused("load"))
        return syscall(SYS_read, fd, bytes, count);
    errno = EIO;
    return -1;
}

ssize_t write(int fd, const void *bytes, size_t count) {
    if (strcmp(kind, "short") == 0 && count > 1)
        count = 1;
    if (!refused("put"))
        return syscall(SYS_write, fd, bytes, count);
    errno = ENOSPC;
    return -1;
}
