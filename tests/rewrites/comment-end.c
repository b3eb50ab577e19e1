/* The end of a comment is spliced, so a macro printf is defined. */
#include <stdio.h>
/* one *\
/
#define printf(...) puts(#__VA_ARGS__)
/* two */
int main(void) { printf("%i\n", 1); return 0; }
