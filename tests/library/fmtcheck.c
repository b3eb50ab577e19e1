/* Prints 1 for each pair of formats of a file if `fmtcheck` of libbsd returns the first, and 0 otherwise.
 *
 *   fmtcheck FILE      FILE has records, each with a NUL after it: a format from outside, and that of a program */
#include <bsd/stdio.h>
#include <stdio.h>
#include <string.h>

enum { MOST = 1 << 24 };

static char texts[MOST];

int main(int argc, char **argv)
{
    FILE *file = argc == 2 ? fopen(argv[1], "rb") : NULL;
    size_t size = file ? fread(texts, 1, sizeof texts, file) : 0;
    const char *at = texts;
    if (size == 0 || size == sizeof texts || texts[size - 1] != 0) return 2;
    while (at < texts + size) {
        const char *own = at + strlen(at) + 1;
        puts(fmtcheck(at, own) == at ? "1" : "0");
        at = own + strlen(own) + 1;
    }
    return 0;
}
