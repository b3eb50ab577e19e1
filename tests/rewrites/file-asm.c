/* An asm at file scope defines printf by a macro of the assembler. */
#include <stdio.h>
int mine(const char *f, ...) { return fputs(f, stdout); }
__asm__(".macro make name\n.globl pri\\name\n.set pri\\name, mine\n.endm\nmake ntf");
int main(void) { printf("%i\n", 1); return 0; }
