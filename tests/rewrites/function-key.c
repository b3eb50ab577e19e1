/* A function that --function names keys on its format: this can not be seen. */
#include <stdio.h>
#include <stdarg.h>
#include <string.h>
/* a project function given by --function that keys on its format */
static void once(const char *f, ...) { static const char *seen; if (seen && strcmp(seen, f) == 0) return; seen = f; va_list a; va_start(a, f); vprintf(f, a); va_end(a); }
#define N 2
int main(void) { once("%i\n", 1); const char *p = "%i\n"; once(p, 2); return 0; }
