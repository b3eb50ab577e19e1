/* The assembler name of another function is printf. */
#include <stdio.h>
int mine(const char *f, ...) __asm__("printf");
int mine(const char *f, ...) { return fputs(f, stdout); }
int main(void) { printf("%i\n", 1); return 0; }
