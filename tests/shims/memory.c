/* A library for LD_PRELOAD: it counts the program's requests for memory, and refuses one of them, or all from that one on.
 *
 * REFUSE_AT is the number of the first one that is refused, from 1 (0: none); with REFUSE_ON all that follow are refused too. The
 * file that REFUSE_COUNT names gets the count, eight bytes in this machine's order. */

#define _GNU_SOURCE
#include <errno.h>
#include <fcntl.h>
#include <stddef.h>
#include <stdint.h>
#include <stdlib.h>
#include <sys/mman.h>
#include <unistd.h>

extern void *__libc_malloc(size_t size);
extern void *__libc_calloc(size_t count, size_t size);
extern void *__libc_realloc(void *old, size_t size);
extern void *__libc_memalign(size_t alignment, size_t size);

static uint64_t spare, *count = &spare;
static uint64_t first;
static int goes_on;

__attribute__((constructor)) static void begin(void)
{
    const char *path = getenv("REFUSE_COUNT");
    const char *at = getenv("REFUSE_AT");
    int file = path ? open(path, O_RDWR | O_CREAT | O_CLOEXEC, 0600) : -1;
    if (file >= 0 && ftruncate(file, sizeof *count) == 0) {
        void *shared = mmap(NULL, sizeof *count, PROT_READ | PROT_WRITE, MAP_SHARED, file, 0);
        if (shared != MAP_FAILED)
            count = shared;
    }
    if (file >= 0)
        close(file);
    /* (what came before the program's own requests is not counted) */
    __atomic_store_n(count, 0, __ATOMIC_SEQ_CST);
    goes_on = getenv("REFUSE_ON") != NULL;
    first = at ? strtoull(at, NULL, 10) : 0;
}

static int is_refused(void)
{
    uint64_t number = __atomic_add_fetch(count, 1, __ATOMIC_SEQ_CST);
    if (first == 0 || number < first || (number > first && !goes_on))
        return 0;
    errno = ENOMEM;
    return 1;
}

void *malloc(size_t size)
{
    return is_refused() ? NULL : __libc_malloc(size);
}

void *calloc(size_t number, size_t size)
{
    return is_refused() ? NULL : __libc_calloc(number, size);
}

void *realloc(void *old, size_t size)
{
    return is_refused() ? NULL : __libc_realloc(old, size);
}

void *aligned_alloc(size_t alignment, size_t size)
{
    return is_refused() ? NULL : __libc_memalign(alignment, size);
}

int posix_memalign(void **place, size_t alignment, size_t size)
{
    if (is_refused())
        return ENOMEM;
    void *found = __libc_memalign(alignment, size);
    if (!found)
        return ENOMEM;
    *place = found;
    return 0;
}
