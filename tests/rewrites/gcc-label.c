/* gcc alone sees that printf is another function. */
#include <stdio.h>
#ifndef __clang__
extern int printf(const char *, ...) __asm__("mine_printf");
#endif
int mine_printf(const char *f, ...) { return fputs(f, stdout); }
int main(void) { printf("%i\n", 1); return 0; }
