/* A pragma says that a header of the project is one of the system. */
#include <stdio.h>
#include "system-header.h"
int main(void) { warn("%i\n"); return 0; }
