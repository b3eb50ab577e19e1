/* Says how two formats compare, with arguments that they print differently. This line compiles it:
 *
 *     cc -std=c99 -o compare compare.c $(pkg-config --cflags --libs fmtcanon)
 */
#include <fmtcanon.h>
#include <inttypes.h>
#include <stdio.h>
#include <stdlib.h>
#include <string.h>

/* Each argument has a NUL after it. */
static void write_arguments(const char *out, size_t size)
{
    printf("different");
    for (size_t at = 0; at < size; at += strlen(out + at) + 1)
        printf(" %s", out + at);
    puts("");
}

static void write_comparison(const fmtcanon_comparison *found, const char *out, size_t size)
{
    if (found->verdict == FMTCANON_SAME)
        puts("same");
    else if (found->verdict == FMTCANON_TYPES)
        printf("types differ at argument %" PRIu64 "\n", found->number);
    else if (found->verdict == FMTCANON_DIRECTIVES)
        printf("directives differ at argument %" PRIu64 "\n", found->number);
    else
        write_arguments(out, size);
}

int main(int argc, char **argv)
{
    if (argc != 3)
        return 2;
    const char *first = argv[1], *second = argv[2];
    fmtcanon_comparison found;
    fmtcanon_error error;
    char buffer[256], *out = buffer;
    size_t first_len = strlen(first), second_len = strlen(second), room = sizeof buffer;
    int64_t size = fmtcanon_whole_compare(FMTCANON_LP64, first, first_len, second, second_len,
                                          out, room, &found, &error);
    if (size > (int64_t)room) {
        room = (size_t)size;
        out = malloc(room);
        if (out != NULL)
            size = fmtcanon_whole_compare(FMTCANON_LP64, first, first_len, second, second_len,
                                          out, room, &found, &error);
    }
    if (out == NULL || size == FMTCANON_ERROR_NOMEMORY)
        puts("out of memory");
    else if (size < 0)
        printf("format %" PRIu32 " is rejected at byte %" PRIu64 "\n", error.side + 1, error.at);
    else
        write_comparison(&found, out, (size_t)size);
    if (out != buffer)
        free(out);
    return 0;
}
