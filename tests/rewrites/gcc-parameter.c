/* gcc alone sees that a parameter is called printf. */
#include <stdio.h>
#ifndef __clang__
static int call(int (*printf)(const char *, ...))
#else
static int call(int (*other)(const char *, ...))
#endif
{ return printf("%i\n", 1); }
static int say(const char *f, ...) { return fputs(f, stdout); }
int main(void) { return call(say) < 0; }
