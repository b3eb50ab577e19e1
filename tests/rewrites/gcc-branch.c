/* A macro printf is defined for gcc, and not for clang. */
#include <stdio.h>
#ifndef __clang__
#define printf(...) puts(#__VA_ARGS__)
#endif
int main(void) { printf("%i\n", 1); return 0; }
