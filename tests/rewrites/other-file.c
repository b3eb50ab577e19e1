/* printf is defined in another file: this can not be seen. */
#include <stdio.h>
int main(void) { printf("%i\n", 1); return 0; }
