/* Prints, for each directive of a file, the smallest and the largest number of bytes that the C library prints for values of
 * its argument: 0, 1, -1, the smallest and the largest of its type, or short and long strings.
 *
 *   printed FILE       FILE has records, each with a NUL after it: the kind of the argument, a space, and the directive */
#include <limits.h>
#include <stddef.h>
#include <stdint.h>
#include <stdio.h>
#include <stdlib.h>
#include <string.h>

enum { MOST = 1 << 22, LONG = 5000 };

static char texts[MOST], string[LONG + 1];
static long least, most;

static void count(int length)
{
    if (length < 0) exit(3);
    if (length < least) least = length;
    if (length > most) most = length;
}

/* Each value of an integer type, as the directive is given it. */
#define TRY(name, type, smallest, largest)                                                                    \
    if (!strcmp(kind, name)) {                                                                                \
        const type values[] = {0, 1, (type)-1, smallest, largest};                                            \
        for (size_t k = 0; k < sizeof values / sizeof *values; k++) count(snprintf(NULL, 0, text, values[k])); \
        return;                                                                                               \
    }

static void print(const char *kind, const char *text)
{
    TRY("signed hh", signed char, SCHAR_MIN, SCHAR_MAX)
    TRY("signed h", short, SHRT_MIN, SHRT_MAX)
    TRY("signed ", int, INT_MIN, INT_MAX)
    TRY("signed l", long, LONG_MIN, LONG_MAX)
    TRY("signed ll", long long, LLONG_MIN, LLONG_MAX)
    TRY("signed j", intmax_t, INTMAX_MIN, INTMAX_MAX)
    TRY("signed z", ptrdiff_t, PTRDIFF_MIN, PTRDIFF_MAX)
    TRY("signed t", ptrdiff_t, PTRDIFF_MIN, PTRDIFF_MAX)
    TRY("unsigned hh", unsigned char, 0, UCHAR_MAX)
    TRY("unsigned h", unsigned short, 0, USHRT_MAX)
    TRY("unsigned ", unsigned, 0, UINT_MAX)
    TRY("unsigned l", unsigned long, 0, ULONG_MAX)
    TRY("unsigned ll", unsigned long long, 0, ULLONG_MAX)
    TRY("unsigned j", uintmax_t, 0, UINTMAX_MAX)
    TRY("unsigned z", size_t, 0, SIZE_MAX)
    TRY("unsigned t", size_t, 0, SIZE_MAX)
    TRY("character", int, 'x', 'x')
    if (strcmp(kind, "string")) exit(2);
    count(snprintf(NULL, 0, text, ""));
    count(snprintf(NULL, 0, text, "x"));
    count(snprintf(NULL, 0, text, string));
}

int main(int argc, char **argv)
{
    FILE *file = argc == 2 ? fopen(argv[1], "rb") : NULL;
    size_t size = file ? fread(texts, 1, sizeof texts, file) : 0;
    char *at = texts;
    if (size == 0 || size == sizeof texts || texts[size - 1] != 0) return 2;
    memset(string, 'x', LONG);
    for (; at < texts + size; at += strlen(at) + 1) {
        char *text = strchr(at, '%');
        if (text == NULL) return 2;
        text[-1] = 0;
        least = LONG_MAX, most = -1;
        print(at, text);
        printf("%ld %ld\n", least, most);
        at = text;
    }
    return 0;
}
