/* A library to be loaded before others (LD_PRELOAD): the N-th call of one kind fails, or is short. docs/faults builds it.
 *
 * FAULTS_COUNTS  a file of one number of 64 bits for each kind; how often each was called is counted there
 * FAULTS_KIND    the kind whose call fails, by its number in `enum kind`
 * FAULTS_AT      which of its calls: 1 is the first
 * FAULTS_HOW     the number of the error; 0 has a read or write of several bytes move one, -1 none
 * FAULTS_STAYS   1: all later calls of the kind do the same
 *
 * The calls are made by syscall(2), so that nothing of the C library is called twice. What goes to standard error is not counted:
 * a disk that is full isn't that of the terminal. As the program begins getppid is called once, which nothing else does: in what
 * strace tells, the calls of the system's loader stand before it. */
#define _GNU_SOURCE
#include <errno.h>
#include <fcntl.h>
#include <stdarg.h>
#include <stdint.h>
#include <stdlib.h>
#include <sys/mman.h>
#include <sys/stat.h>
#include <sys/syscall.h>
#include <sys/types.h>
#include <sys/uio.h>
#include <unistd.h>

enum kind { OPEN, READ, WRITE, PREAD, PWRITE, FTRUNCATE, FLOCK, CLOSE, STATX, FCHMOD, MEMORY, KINDS };

void *__libc_malloc(size_t), *__libc_calloc(size_t, size_t), *__libc_realloc(void *, size_t), *__libc_memalign(size_t, size_t);

static uint64_t none[KINDS], *counts = none;
static long kind = -1, at, how, stays;

static long number(const char *name)
{
    const char *text = getenv(name);
    return text ? atol(text) : -1;
}

__attribute__((constructor)) static void begin(void)
{
    const char *file = getenv("FAULTS_COUNTS");
    syscall(SYS_getppid);
    int fd = file ? (int)syscall(SYS_openat, AT_FDCWD, file, O_RDWR) : -1;
    if (fd < 0)
        return;
    void *place = (void *)syscall(SYS_mmap, 0, sizeof none, PROT_READ | PROT_WRITE, MAP_SHARED, fd, 0);
    syscall(SYS_close, fd);
    if (place == MAP_FAILED)
        return;
    counts = place;
    at = number("FAULTS_AT");
    how = number("FAULTS_HOW");
    stays = number("FAULTS_STAYS") == 1;
    kind = number("FAULTS_KIND");
}

/* whether this call is the one, or a later one of a fault that stays */
static int is_hit(enum kind called)
{
    uint64_t now = ++counts[called];
    return kind == (long)called && (now == (uint64_t)at || (stays && now > (uint64_t)at));
}

/* whether this call fails, with errno set */
static int fails(enum kind called)
{
    if (!is_hit(called) || how <= 0)
        return 0;
    errno = (int)how;
    return 1;
}

/* how many bytes a call moves; 0 where it fails, with errno set, or moves none */
static size_t moved(enum kind called, size_t size, int *failed)
{
    *failed = 0;
    if (!is_hit(called))
        return size;
    if (how == 0)
        return size > 1 ? 1 : size;
    if (how < 0)
        return 0;
    errno = (int)how;
    *failed = 1;
    return 0;
}

int openat(int folder, const char *name, int flags, ...)
{
    mode_t mode = 0;
    if (flags & (O_CREAT | __O_TMPFILE)) {
        va_list words;
        va_start(words, flags);
        mode = va_arg(words, mode_t);
        va_end(words);
    }
    return fails(OPEN) ? -1 : (int)syscall(SYS_openat, folder, name, flags, mode);
}

int open(const char *name, int flags, ...)
{
    mode_t mode = 0;
    if (flags & (O_CREAT | __O_TMPFILE)) {
        va_list words;
        va_start(words, flags);
        mode = va_arg(words, mode_t);
        va_end(words);
    }
    return fails(OPEN) ? -1 : (int)syscall(SYS_openat, AT_FDCWD, name, flags, mode);
}

int open64(const char *, int, ...) __attribute__((alias("open")));
int openat64(int, const char *, int, ...) __attribute__((alias("openat")));

ssize_t read(int fd, void *to, size_t size)
{
    int failed;
    size = moved(READ, size, &failed);
    return failed ? -1 : syscall(SYS_read, fd, to, size);
}

ssize_t write(int fd, const void *from, size_t size)
{
    int failed = 0;
    if (fd != STDERR_FILENO)
        size = moved(WRITE, size, &failed);
    return failed ? -1 : syscall(SYS_write, fd, from, size);
}

ssize_t writev(int fd, const struct iovec *parts, int many)
{
    int failed;
    size_t whole = 0;
    for (int part = 0; part < many; part++)
        whole += parts[part].iov_len;
    if (fd == STDERR_FILENO)
        return syscall(SYS_writev, fd, parts, many);
    size_t size = moved(WRITE, whole, &failed);
    if (failed)
        return -1;
    if (size == whole)
        return syscall(SYS_writev, fd, parts, many);
    if (size == 0)
        return 0;
    while (parts->iov_len == 0)
        parts++;
    return syscall(SYS_write, fd, parts->iov_base, size);
}

ssize_t pread(int fd, void *to, size_t size, off_t place)
{
    int failed;
    size = moved(PREAD, size, &failed);
    return failed ? -1 : syscall(SYS_pread64, fd, to, size, place);
}

ssize_t pwrite(int fd, const void *from, size_t size, off_t place)
{
    int failed;
    size = moved(PWRITE, size, &failed);
    return failed ? -1 : syscall(SYS_pwrite64, fd, from, size, place);
}

ssize_t pread64(int, void *, size_t, off64_t) __attribute__((alias("pread")));
ssize_t pwrite64(int, const void *, size_t, off64_t) __attribute__((alias("pwrite")));

int ftruncate(int fd, off_t size)
{
    return fails(FTRUNCATE) ? -1 : (int)syscall(SYS_ftruncate, fd, size);
}

int ftruncate64(int, off64_t) __attribute__((alias("ftruncate")));

int flock(int fd, int what)
{
    return fails(FLOCK) ? -1 : (int)syscall(SYS_flock, fd, what);
}

/* a close that fails has closed */
int close(int fd)
{
    int closed = (int)syscall(SYS_close, fd);
    return fails(CLOSE) ? -1 : closed;
}

int statx(int folder, const char *name, int flags, unsigned mask, struct statx *to)
{
    return fails(STATX) ? -1 : (int)syscall(SYS_statx, folder, name, flags, mask, to);
}

int fchmod(int fd, mode_t mode)
{
    return fails(FCHMOD) ? -1 : (int)syscall(SYS_fchmod, fd, mode);
}

void *malloc(size_t size)
{
    return fails(MEMORY) ? NULL : __libc_malloc(size);
}

void *calloc(size_t many, size_t size)
{
    return fails(MEMORY) ? NULL : __libc_calloc(many, size);
}

void *realloc(void *old, size_t size)
{
    return fails(MEMORY) ? NULL : __libc_realloc(old, size);
}

void *aligned_alloc(size_t align, size_t size)
{
    return fails(MEMORY) ? NULL : __libc_memalign(align, size);
}

int posix_memalign(void **to, size_t align, size_t size)
{
    if (fails(MEMORY))
        return ENOMEM;
    *to = __libc_memalign(align, size);
    return *to ? 0 : ENOMEM;
}
