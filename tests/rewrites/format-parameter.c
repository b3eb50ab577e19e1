/* A parameter is called printf. */
#include <stdio.h>
typedef int F(const char *, ...);
static int say(const char *f, ...) { return fputs(f, stdout); }
static int format(F *printf, int n) { return printf("%i\n", n); }
int main(void) { return format(say, 3) < 0; }
