/* A library for LD_PRELOAD: fsync and fdatasync wait SYNC_WAIT microseconds longer, as on a plain disk, and are counted in the
 * file that SYNC_COUNT names, eight bytes in this machine's order. */

#define _GNU_SOURCE
#include <errno.h>
#include <fcntl.h>
#include <stdint.h>
#include <stdlib.h>
#include <sys/mman.h>
#include <sys/syscall.h>
#include <time.h>
#include <unistd.h>

static uint64_t *count;
static long wait_microseconds;

__attribute__((constructor)) static void begin(void)
{
    const char *path = getenv("SYNC_COUNT");
    const char *wait = getenv("SYNC_WAIT");
    wait_microseconds = wait ? atol(wait) : 0;
    int file = path ? open(path, O_RDWR | O_CREAT | O_CLOEXEC, 0600) : -1;
    if (file < 0 || ftruncate(file, sizeof *count) != 0)
        return;
    void *at = mmap(NULL, sizeof *count, PROT_READ | PROT_WRITE, MAP_SHARED, file, 0);
    close(file);
    count = at == MAP_FAILED ? NULL : at;
}

static int sync_by(long call, int file)
{
    if (count)
        __atomic_add_fetch(count, 1, __ATOMIC_RELAXED);
    struct timespec left = {wait_microseconds / 1000000, wait_microseconds % 1000000 * 1000};
    while (wait_microseconds > 0 && nanosleep(&left, &left) != 0 && errno == EINTR)
        ;
    return (int)syscall(call, file);
}

int fsync(int file)
{
    return sync_by(SYS_fsync, file);
}

int fdatasync(int file)
{
    return sync_by(SYS_fdatasync, file);
}
