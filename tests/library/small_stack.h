/* A stack with little room, between pages that can't be accessed. A thread's would do on x86-64, but on AArch64 it has 128 KiB
 * at least. */
#ifndef SMALL_STACK_H
#define SMALL_STACK_H

#include <sys/mman.h>
#include <ucontext.h>

/* Returns whether it could call `call` on a stack of `size` bytes, which are pages. */
static int on_small_stack(void (*call)(void), size_t size)
{
    enum { GUARD = 1 << 16 };
    static ucontext_t before, within;
    char *room = mmap(NULL, size + 2 * GUARD, PROT_NONE, MAP_PRIVATE | MAP_ANONYMOUS, -1, 0);
    if (room == MAP_FAILED || mprotect(room + GUARD, size, PROT_READ | PROT_WRITE) || getcontext(&within)) return 0;
    within.uc_stack.ss_sp = room + GUARD;
    within.uc_stack.ss_size = size;
    within.uc_link = &before;
    makecontext(&within, call, 0);
    return swapcontext(&before, &within) == 0 && munmap(room, size + 2 * GUARD) == 0;
}

#endif
