/* Says how large a buffer for `sprintf` has to be for each format that it is given. This line compiles it:
 *
 *     cc -std=c99 -o buffer buffer.c $(pkg-config --cflags --libs fmtcanon)
 */
#include <fmtcanon.h>
#include <inttypes.h>
#include <stdio.h>
#include <string.h>

int main(int argc, char **argv)
{
    for (int i = 1; i < argc; i++) {
        struct fmtcanon_bounds bounds;
        fmtcanon_error error;
        if (fmtcanon_bounds(FMTCANON_NATIVE, argv[i], strlen(argv[i]), &bounds, &error) < 0)
            printf("%s: rejected at byte %" PRIu64 "\n", argv[i], error.at);
        else if (bounds.greatest == FMTCANON_UNBOUNDED)
            printf("%s: no buffer is large enough\n", argv[i]);
        else
            printf("%s: %" PRIu64 "\n", argv[i], bounds.greatest + 1);
    }
    return 0;
}
