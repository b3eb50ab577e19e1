/* A comment that ends in two backslashes goes on in the next line. */
#include <stdio.h>
// the share is \\host\\
/*
#define printf(...) puts(#__VA_ARGS__)
/* */
int main(void) { printf("%i\n", 1); return 0; }
