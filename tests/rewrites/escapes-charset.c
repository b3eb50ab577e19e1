/* The compile command changes the bytes of literals. */
#include <stdio.h>
int main(void) { printf("\303\251%i\n", 1); return 0; }
