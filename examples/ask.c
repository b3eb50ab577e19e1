/* Says whether two formats are the same, and whether the second fits the first: 1 or 0, or minus the kind of a format
 * that is rejected. This line compiles it:
 *
 *     cc -std=c99 -o ask ask.c $(pkg-config --cflags --libs fmtcanon)
 */
#include <fmtcanon.h>
#include <inttypes.h>
#include <stdio.h>
#include <string.h>

int main(int argc, char **argv)
{
    if (argc != 3)
        return 2;
    const char *f = argv[1], *g = argv[2];
    size_t f_len = strlen(f), g_len = strlen(g);
    int64_t same = fmtcanon_same(FMTCANON_LP64, f, f_len, g, g_len, NULL);
    int64_t fits = fmtcanon_fits(FMTCANON_LP64, f, f_len, g, g_len, NULL);
    printf("same: %" PRId64 ", fits: %" PRId64 "\n", same, fits);
    return same != 1;
}
