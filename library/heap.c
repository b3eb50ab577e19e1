/* The heap of the library on processors for which the kit has none: its three calls, over malloc, realloc and free.
 *
 * The proofs rest on their contracts (libc/src/heap.rt of the kit): an alignment divides 16, which every block of malloc has
 * on AArch64; a size may be 0, and the answer is a block then, too; without memory `ok` is false, and the pointer isn't null. */
#include <stdbool.h>
#include <stddef.h>
#include <stdlib.h>

struct tried {
    bool ok;
    void *block;
};

/* What the pointer points to where there is no memory. It is never read or written. */
static char nowhere;

static struct tried tried(void *block)
{
    return (struct tried){block != NULL, block ? block : &nowhere};
}

struct tried rattle_alloc(size_t size, size_t align)
{
    return tried(malloc(size ? size : align));
}

/* Keeps the first bytes. If it fails, the old block is as it was. */
struct tried rattle_realloc(void *block, size_t kept, size_t size, size_t align)
{
    (void)kept;
    return tried(realloc(block, size ? size : align));
}

void rattle_dealloc(void *block)
{
    free(block);
}
