/* The heap of the WebAssembly module: the three calls of the kit's heap.rt, and room before the heap for what JavaScript
 * passes.
 *
 * The heap is a stack, since a call of the library frees all its blocks before it returns: the last block gives its memory
 * back when it is freed or becomes smaller, and any other one when no block is left. Its size comes before each block.
 *
 * The contracts of the three calls are those of ../library/heap.c: an alignment divides 16; a size may be 0; out of memory,
 * `ok` is false, and the pointer isn't null. */
typedef unsigned long size_t;

enum { UNIT = 16, PAGE = 65536 };

/* Larger than any block: a module with 32-bit addresses has no more memory. */
#define MOST (1ul << 32)

/* The kit's code reads at least the first byte of `ok`. */
struct tried {
    size_t ok;
    char *block;
};

extern char __heap_base[];
static size_t room, blocks;
static char *next;

static size_t *size_of(char *block)
{
    return (size_t *)(block - UNIT);
}

static size_t rounded(size_t size)
{
    return (size + UNIT - 1) / UNIT * UNIT;
}

static char *base(void)
{
    return (char *)rounded((size_t)__heap_base);
}

/* Whether the memory has this many bytes after an address. It is made larger if it hasn't. Its size says whether that was
 * done, since with 32-bit addresses the instruction returns another number for no than -1. */
static _Bool has(char *from, size_t size)
{
    size_t end = (size_t)from + size, pages = __builtin_wasm_memory_size(0);
    if (size >= MOST)
        return 0;
    if (end > pages * PAGE)
        (void)__builtin_wasm_memory_grow(0, (end - pages * PAGE + PAGE - 1) / PAGE);
    return end <= __builtin_wasm_memory_size(0) * PAGE;
}

/* Makes room for this many bytes before the heap, which must have no block, and returns where it is; NULL if it can't. */
char *fmtcanon_room(size_t size)
{
    if (!has(base(), size))
        return 0;
    room = rounded(size);
    return base();
}

struct tried rattle_alloc(size_t size, size_t align)
{
    (void)align;
    char *block = (blocks ? next : base() + room) + UNIT;
    size_t full = rounded(size ? size : 1);
    if (size >= MOST || !has(block, full))
        return (struct tried){0, __heap_base};
    *size_of(block) = full;
    next = block + full;
    blocks++;
    return (struct tried){1, block};
}

void rattle_dealloc(char *block)
{
    if (block + *size_of(block) == next)
        next = block - UNIT;
    blocks--;
}

/* Keeps the first bytes. If it fails, the old block is as it was. */
struct tried rattle_realloc(char *block, size_t kept, size_t size, size_t align)
{
    size_t full = rounded(size ? size : 1), old = *size_of(block);
    if (size < MOST && block + old == next && has(block, full)) {
        *size_of(block) = full;
        next = block + full;
        return (struct tried){1, block};
    }
    if (size <= old)
        return (struct tried){1, block};
    struct tried made = rattle_alloc(size, align);
    if (made.ok) {
        __builtin_memcpy(made.block, block, kept);
        rattle_dealloc(block);
    }
    return made;
}
