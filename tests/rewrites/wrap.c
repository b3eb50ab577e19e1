/* The linker replaces printf. */
#include <stdio.h>
int __wrap_printf(const char *f, ...) { return fputs(f, stdout); }
int main(void) { printf("%i\n", 1); return 0; }
