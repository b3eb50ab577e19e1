/* A pragma gives printf another name. */
#include <stdio.h>
#pragma redefine_extname printf mine
int mine(const char *f, ...) { return fputs(f, stdout); }
int main(void) { printf("%i\n", 1); return 0; }
