/* The name of a header looks like the start of a comment. */
#include <stdio.h>
#if __has_include(<a/*b.h>)
#endif
#define printf(...) puts(#__VA_ARGS__)
/* */
int main(void) { printf("%i\n", 1); return 0; }
