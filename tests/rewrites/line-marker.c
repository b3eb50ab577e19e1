/* A line marker says that own code is of a system header. */
#include <stdio.h>
# 1 "warn.h" 3
static void warn(const char *s) { fputs(s, stdout); }
# 4 "linemark.c"
int main(void) { warn("%i\n"); return 0; }
