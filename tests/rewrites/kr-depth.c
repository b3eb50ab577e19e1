/* printf is defined in the old form, where #if splits a brace. */
#include <unistd.h>
#include <string.h>
#if 1
int f(void) {
#else
int g(void) {
#endif
    return 0;
}
printf(s) char *s; { return write(1, s, strlen(s)); }
int main(void) { printf("%i\n"); return f(); }
