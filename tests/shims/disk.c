/* A library for LD_PRELOAD: it counts the program's calls that open, change or sync files whose paths begin with FAIL_PATH,
 * and makes one of them fail, or all from that one on.
 *
 * FAIL_AT is the number of the first one that fails, from 1 (0: none); with FAIL_ON all that follow fail too. FAIL_WITH is the
 * number of the error. With FAIL_TORN a write that fails has written the first half of its bytes. The file that FAIL_COUNT names gets
 * the count, eight bytes in this machine's order. */

#define _GNU_SOURCE
#include <dlfcn.h>
#include <errno.h>
#include <fcntl.h>
#include <limits.h>
#include <stdarg.h>
#include <stdint.h>
#include <stdio.h>
#include <stdlib.h>
#include <string.h>
#include <sys/mman.h>
#include <sys/stat.h>
#include <sys/syscall.h>
#include <sys/uio.h>
#include <unistd.h>

static uint64_t spare, *count = &spare;
static uint64_t first;
static int goes_on, is_torn, error = EIO;
static char prefix[PATH_MAX];

__attribute__((constructor)) static void begin(void)
{
    const char *path = getenv("FAIL_COUNT"), *at = getenv("FAIL_AT"), *with = getenv("FAIL_WITH"), *where = getenv("FAIL_PATH");
    int file = path ? (int)syscall(SYS_openat, AT_FDCWD, path, O_RDWR | O_CREAT | O_CLOEXEC, 0600) : -1;
    if (file >= 0 && syscall(SYS_ftruncate, file, sizeof *count) == 0) {
        void *shared = mmap(NULL, sizeof *count, PROT_READ | PROT_WRITE, MAP_SHARED, file, 0);
        if (shared != MAP_FAILED)
            count = shared;
    }
    if (file >= 0)
        syscall(SYS_close, file);
    if (where)
        snprintf(prefix, sizeof prefix, "%s", where);
    goes_on = getenv("FAIL_ON") != NULL;
    is_torn = getenv("FAIL_TORN") != NULL;
    error = with ? atoi(with) : EIO;
    first = at ? strtoull(at, NULL, 10) : 0;
}

static int is_path(const char *path)
{
    return prefix[0] && path && strncmp(path, prefix, strlen(prefix)) == 0;
}

static int is_file(int file)
{
    char link[64], path[PATH_MAX];
    snprintf(link, sizeof link, "/proc/self/fd/%d", file);
    ssize_t length = readlink(link, path, sizeof path - 1);
    if (length < 0)
        return 0;
    path[length] = 0;
    return is_path(path);
}

static int fails(int is_ours)
{
    if (!is_ours)
        return 0;
    uint64_t number = __atomic_add_fetch(count, 1, __ATOMIC_SEQ_CST);
    if (first == 0 || number < first || (number > first && !goes_on))
        return 0;
    errno = error;
    return 1;
}

ssize_t write(int file, const void *bytes, size_t length)
{
    if (!fails(is_file(file)))
        return syscall(SYS_write, file, bytes, length);
    if (is_torn)
        syscall(SYS_write, file, bytes, length / 2);
    errno = error;
    return -1;
}

static ssize_t write_at(int file, const void *bytes, size_t length, off_t at)
{
    if (!fails(is_file(file)))
        return syscall(SYS_pwrite64, file, bytes, length, at);
    if (is_torn)
        syscall(SYS_pwrite64, file, bytes, length / 2, at);
    errno = error;
    return -1;
}

ssize_t pwrite(int file, const void *bytes, size_t length, off_t at)
{
    return write_at(file, bytes, length, at);
}

ssize_t pwrite64(int file, const void *bytes, size_t length, off64_t at)
{
    return write_at(file, bytes, length, at);
}

int fsync(int file)
{
    return fails(is_file(file)) ? -1 : (int)syscall(SYS_fsync, file);
}

int fdatasync(int file)
{
    return fails(is_file(file)) ? -1 : (int)syscall(SYS_fdatasync, file);
}

int ftruncate(int file, off_t length)
{
    return fails(is_file(file)) ? -1 : (int)syscall(SYS_ftruncate, file, length);
}

int ftruncate64(int file, off64_t length)
{
    return fails(is_file(file)) ? -1 : (int)syscall(SYS_ftruncate, file, length);
}

int link(const char *from, const char *to)
{
    return fails(is_path(to)) ? -1 : (int)syscall(SYS_linkat, AT_FDCWD, from, AT_FDCWD, to, 0);
}

int linkat(int from_folder, const char *from, int to_folder, const char *to, int flags)
{
    return fails(is_path(to)) ? -1 : (int)syscall(SYS_linkat, from_folder, from, to_folder, to, flags);
}

int unlink(const char *path)
{
    return fails(is_path(path)) ? -1 : (int)syscall(SYS_unlink, path);
}

static int open_by(int folder, const char *path, int flags, mode_t mode)
{
    return fails(is_path(path)) ? -1 : (int)syscall(SYS_openat, folder, path, flags, mode);
}

#define MODE_OF(flags, mode)                          \
    mode_t mode = 0;                                  \
    if ((flags) & (O_CREAT | O_TMPFILE)) {            \
        va_list rest;                                 \
        va_start(rest, flags);                        \
        mode = (mode_t)va_arg(rest, int);             \
        va_end(rest);                                 \
    }

int open(const char *path, int flags, ...)
{
    MODE_OF(flags, mode)
    return open_by(AT_FDCWD, path, flags, mode);
}

int open64(const char *path, int flags, ...)
{
    MODE_OF(flags, mode)
    return open_by(AT_FDCWD, path, flags, mode);
}

int openat(int folder, const char *path, int flags, ...)
{
    MODE_OF(flags, mode)
    return open_by(folder, path, flags, mode);
}

int openat64(int folder, const char *path, int flags, ...)
{
    MODE_OF(flags, mode)
    return open_by(folder, path, flags, mode);
}
