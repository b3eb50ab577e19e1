/* A pragma makes printf another name of a function of the program. */
#include <stdio.h>
int mine(const char *f, ...) { return fputs(f, stdout); }
#pragma weak printf = mine
int main(void) { printf("%i\n", 1); return 0; }
