/* The program registers a conversion of its own. */
#include <stdio.h>
#include <printf.h>
static int say(FILE *f, const struct printf_info *i, const void *const *a) { (void)i; (void)a; return fprintf(f, "<%u>", 7u); }
static int arg(const struct printf_info *i, size_t n, int *t, int *s) { (void)i; (void)s; if (n) *t = PA_INT; return 1; }
int main(void) { register_printf_specifier('i', say, arg); printf("%i\n", 1); return 0; }
