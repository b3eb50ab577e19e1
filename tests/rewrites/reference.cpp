/* A member function is called printf. */
#include <stdio.h>
struct Log {
    int n;
    int &printf(const char *f) { n += fputs(f, stdout); return n; }
    void go() { printf("%i\n"); }
};
int main() { Log l = {0}; l.go(); return 0; }
