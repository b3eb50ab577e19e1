/* A parameter has the name of a function that --function names. */
#include <stdio.h>
static void say(const char *s) { fputs(s, stdout); }
static void put(void (*log)(const char *)) { log("%i\n"); }
int main(void) { put(say); return 0; }
