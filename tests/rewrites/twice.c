/* The file is read twice, and printf is a macro the second time. */
#include <stdio.h>
#ifndef AGAIN
#define AGAIN
#define NAME first
#include "twice.c"
#undef NAME
#define NAME second
#define printf(f, n) puts(f)
#include "twice.c"
int main(void) { first(); second(); return 0; }
#else
void NAME(void) { printf("%i\n", 1); }
#endif
