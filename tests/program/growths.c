/* Refuses a growth of memory: the one whose number, from 0, the environment names as GROWTH, and all
 * after it where it has ALL. A byte for each growth goes to the file that it names as GROWTHS. It is
 * loaded before the C library, by LD_PRELOAD. */
#define _GNU_SOURCE
#include <errno.h>
#include <fcntl.h>
#include <stdlib.h>
#include <sys/syscall.h>
#include <unistd.h>

void *__libc_malloc(size_t size);
void *__libc_calloc(size_t count, size_t size);
void *__libc_realloc(void *block, size_t size);
void *__libc_memalign(size_t alignment, size_t size);

static long growths;

static int is_refused(void)
{
    const char *number = getenv("GROWTH"), *name = getenv("GROWTHS");
    int file = name == NULL ? -1 : (int)syscall(SYS_openat, AT_FDCWD, name, O_WRONLY | O_APPEND | O_CREAT, 0600);
    if (file >= 0) {
        syscall(SYS_write, file, "+", (size_t)1);
        syscall(SYS_close, file);
    }
    long at = growths++, refused = number == NULL ? at + 1 : atol(number);
    return at == refused || (at > refused && getenv("ALL") != NULL);
}

void *malloc(size_t size)
{
    return is_refused() ? NULL : __libc_malloc(size);
}

void *calloc(size_t count, size_t size)
{
    return is_refused() ? NULL : __libc_calloc(count, size);
}

void *realloc(void *block, size_t size)
{
    return is_refused() ? NULL : __libc_realloc(block, size);
}

void *aligned_alloc(size_t alignment, size_t size)
{
    return is_refused() ? NULL : __libc_memalign(alignment, size);
}

int posix_memalign(void **block, size_t alignment, size_t size)
{
    *block = is_refused() ? NULL : __libc_memalign(alignment, size);
    return *block == NULL ? ENOMEM : 0;
}
