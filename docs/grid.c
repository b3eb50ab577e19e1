/* What the C library prints for integers: the rows of tests/rows/grid.txt, and the long ones of
   tests/rows/long.txt.
   cc -w -o grid docs/grid.c; ./grid short di; ./grid short u; ./grid short o; ./grid short xX;
   ./grid short b; ./grid long diu; ./grid long oxXb (with a width or a precision of 4,095). It takes
   a library that has C23's `b`.
   A row is a line: a format, the bits of its values, and what is printed of 0, 1, -1 and of the least
   and the greatest number of so many bits, with `|` after each. A long row has the byte that stands
   many times, and then for each of the five what comes before its longest run, how often it stands
   there, and what comes after, with `~` between. */
#include <stdint.h>
#include <stdio.h>
#include <string.h>
#include <stddef.h>

static const char *lengths[] = {"hh", "h", "", "l", "ll", "j", "z", "t"};
static const int bits[] = {8, 16, 32, 64, 64, 64, 64, 64};

static const char *signed_shapes[] = {"", "+", " ", "08", "+08", " 08", "-8", "-+8.3", "8.5", ".0", "+.0", "'05", 0};
static const char *unsigned_shapes[] = {"", "8", "08", "-8", "-08", ".0", "5.0", ".5", "8.5", "-8.3", "08.3", "'05", 0};
static const char *based_shapes[] = {"", "#", "#8", "-#8", "08", "#08", "-8.3", "8.5", "#8.5", ".0", "#.0", "-#5.0", 0};
static const char *signed_long[] = {"4095", "-+4095", " 04095", ".4095", 0};
static const char *unsigned_long_[] = {"4095", "-4095", "04095", ".4095", 0};
static const char *based_long[] = {"4095", "-#4095", "#04095", "#.4095", 0};

static int print(char *out, size_t size, const char *format, int length, int is_signed, int64_t v) {
    switch (length) {
    case 0: case 1: return snprintf(out, size, format, (int)v);
    case 2: return is_signed ? snprintf(out, size, format, (int)v) : snprintf(out, size, format, (unsigned)v);
    case 3: return is_signed ? snprintf(out, size, format, (long)v) : snprintf(out, size, format, (unsigned long)v);
    case 4: return is_signed ? snprintf(out, size, format, (long long)v) : snprintf(out, size, format, (unsigned long long)v);
    case 5: return is_signed ? snprintf(out, size, format, (intmax_t)v) : snprintf(out, size, format, (uintmax_t)v);
    case 6: return is_signed ? snprintf(out, size, format, (ptrdiff_t)v) : snprintf(out, size, format, (size_t)v);
    default: return is_signed ? snprintf(out, size, format, (ptrdiff_t)v) : snprintf(out, size, format, (size_t)v);
    }
}

/* where the longest run of one byte begins, and its length */
static size_t longest_run(const char *out, size_t *at) {
    size_t best = 0;
    for (size_t i = 0; out[i];) {
        size_t j = i;
        while (out[j] == out[i]) j++;
        if (j - i > best) best = j - i, *at = i;
        i = j;
    }
    return best;
}

static void short_row(char out[5][8192]) {
    for (int i = 0; i < 5; i++) printf("%s|", out[i]);
    printf("\n");
}

static void long_row(char out[5][8192]) {
    size_t at[5] = {0}, run[5];
    for (int i = 0; i < 5; i++) run[i] = longest_run(out[i], &at[i]);
    printf("%c|", out[0][at[0]]);
    for (int i = 0; i < 5; i++) printf("%.*s~%zu~%s|", (int)at[i], out[i], run[i], out[i] + at[i] + run[i]);
    printf("\n");
}

static void table(char conv, int is_long) {
    int is_signed = conv == 'd' || conv == 'i';
    const char **shapes = is_signed ? (is_long ? signed_long : signed_shapes)
        : conv == 'u' ? (is_long ? unsigned_long_ : unsigned_shapes) : (is_long ? based_long : based_shapes);
    for (int l = 0; l < 8; l++)
        for (const char **s = shapes; *s; s++) {
            char format[64];
            static char out[5][8192];
            snprintf(format, sizeof format, "%%%s%s%c", *s, lengths[l], conv);
            int64_t half = (int64_t)((uint64_t)1 << (bits[l] - 1));
            int64_t least = bits[l] == 64 ? INT64_MIN : -half;
            int64_t values[] = {0, 1, -1, least, -(least + 1)};
            for (int i = 0; i < 5; i++) print(out[i], sizeof out[i], format, l, is_signed, values[i]);
            printf("%s|%d|", format, bits[l]);
            if (is_long) long_row(out); else short_row(out);
        }
}

/* grid short CONVERSIONS, or grid long CONVERSIONS */
int main(int argc, char **argv) {
    if (argc != 3) return 1;
    for (const char *c = argv[2]; *c; c++) table(*c, !strcmp(argv[1], "long"));
    return 0;
}
