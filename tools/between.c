/* Stands between a program and the C library: it refuses or cuts one of the program's requests and calls.
 *
 * It counts the requests for memory, the calls that open, seek, read or write, and the transfers of several bytes. The
 * environment says which one is met, and at the end the file BETWEEN_TOLD has the three counts and what was met:
 *
 *   BETWEEN_KIND   m: a request for memory is refused; c: a call fails; z: a write takes nothing; s: a transfer moves
 *                  one byte
 *   BETWEEN_AT     its number, from 1 on; with s 0 for every transfer
 *   BETWEEN_ERROR  the number of the error with which a call fails
 */
#define _GNU_SOURCE
#include <errno.h>
#include <fcntl.h>
#include <stdarg.h>
#include <stdio.h>
#include <stdlib.h>
#include <sys/syscall.h>
#include <sys/uio.h>
#include <unistd.h>

extern void *__libc_malloc(size_t), *__libc_calloc(size_t, size_t), *__libc_realloc(void *, size_t);
extern void *__libc_memalign(size_t, size_t);
static int on, error = EIO;
static char kind;
static long at, requests, calls, transfers;
static const char *met = "none", *told;

__attribute__((constructor)) static void begin(void) {
    const char *number = getenv("BETWEEN_AT"), *what = getenv("BETWEEN_KIND"), *how = getenv("BETWEEN_ERROR");
    told = getenv("BETWEEN_TOLD");
    at = number ? atol(number) : -1;
    kind = what ? *what : 0;
    if (how) error = atoi(how);
    on = told != 0;
}

__attribute__((destructor)) static void end(void) {
    char text[160];
    if (!on) return;
    on = 0;
    int size = snprintf(text, sizeof text, "%ld %ld %ld %s", requests, calls, transfers, met);
    int file = syscall(SYS_openat, AT_FDCWD, told, O_WRONLY | O_CREAT | O_TRUNC, 0600);
    syscall(SYS_write, file, text, (size_t)size);
}

static int no_memory(void) {
    if (!on || ++requests != at || kind != 'm') return 0;
    met = "memory";
    errno = ENOMEM;
    return 1;
}

static int fails(const char *name) {
    if (!on || ++calls != at || kind != 'c') return 0;
    met = name;
    errno = error;
    return 1;
}

/* As `fails`, of a write, which can also take nothing: what it answers then, or 1 if it is not met. */
static ssize_t refused(const char *name) {
    if (fails(name)) return -1;
    if (!on || calls != at || kind != 'z') return 1;
    met = name;
    return 0;
}

static size_t moves(const char *name, size_t size) {
    if (!on || size < 2) return size;
    if ((++transfers != at && at != 0) || kind != 's') return size;
    met = name;
    return 1;
}

void *malloc(size_t size) { return no_memory() ? 0 : __libc_malloc(size); }
void *calloc(size_t count, size_t size) { return no_memory() ? 0 : __libc_calloc(count, size); }
void *realloc(void *block, size_t size) { return size && no_memory() ? 0 : __libc_realloc(block, size); }
void *aligned_alloc(size_t to, size_t size) { return no_memory() ? 0 : __libc_memalign(to, size); }
int posix_memalign(void **block, size_t to, size_t size) {
    if (no_memory() || !(*block = __libc_memalign(to, size))) return ENOMEM;
    return 0;
}

static long opened(int folder, const char *path, int flags, va_list rest) {
    int mode = flags & O_CREAT ? va_arg(rest, int) : 0;
    return fails("open") ? -1 : syscall(SYS_openat, folder, path, flags, mode);
}
#define OPEN(...)                                                                                                      \
    {                                                                                                                  \
        va_list rest;                                                                                                  \
        va_start(rest, flags);                                                                                         \
        int file = opened(__VA_ARGS__, path, flags, rest);                                                             \
        va_end(rest);                                                                                                  \
        return file;                                                                                                   \
    }
int open(const char *path, int flags, ...) OPEN(AT_FDCWD)
int open64(const char *path, int flags, ...) OPEN(AT_FDCWD)
int openat(int folder, const char *path, int flags, ...) OPEN(folder)
int openat64(int folder, const char *path, int flags, ...) OPEN(folder)

off_t lseek(int file, off_t to, int from) { return fails("seek") ? -1 : syscall(SYS_lseek, file, to, from); }
off_t lseek64(int file, off_t to, int from) { return lseek(file, to, from); }

ssize_t read(int file, void *to, size_t size) {
    const char *name = file == 0 ? "input" : "read";
    return fails(name) ? -1 : syscall(SYS_read, file, to, moves(name, size));
}
ssize_t pread(int file, void *to, size_t size, off_t from) {
    return fails("read") ? -1 : syscall(SYS_pread64, file, to, moves("read", size), from);
}
ssize_t pread64(int file, void *to, size_t size, off_t from) { return pread(file, to, size, from); }

static const char *sink(int file) { return file == 1 ? "out" : file == 2 ? "diag" : "write"; }
ssize_t write(int file, const void *from, size_t size) {
    ssize_t answer = size ? refused(sink(file)) : 1;
    return answer <= 0 ? answer : syscall(SYS_write, file, from, moves(sink(file), size));
}
ssize_t __write(int file, const void *from, size_t size) { return write(file, from, size); }
ssize_t writev(int file, const struct iovec *pieces, int count) {
    size_t size = 0;
    int first = -1;
    for (int i = 0; i < count; i++) {
        if (pieces[i].iov_len && first < 0) first = i;
        size += pieces[i].iov_len;
    }
    ssize_t answer = size ? refused(sink(file)) : 1;
    if (answer <= 0) return answer;
    if (moves(sink(file), size) != size) return syscall(SYS_write, file, pieces[first].iov_base, (size_t)1);
    return syscall(SYS_writev, file, pieces, count);
}
