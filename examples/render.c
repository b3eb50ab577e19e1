/* Prints a format with the arguments that come after it, if they fit. This line compiles it:
 *
 *     cc -std=c99 -o render render.c $(pkg-config --cflags --libs fmtcanon)
 */
#include <fmtcanon.h>
#include <inttypes.h>
#include <stdio.h>
#include <stdlib.h>
#include <string.h>

enum { MOST = 16 };

/* The argument of this type that a word is. */
static fmtcanon_argument argument(unsigned char kind, const char *word)
{
    fmtcanon_argument number = {kind, 0, NULL, 0}, string = {FMTCANON_STRING, 0, word, strlen(word)};
    number.number = *word == '-' ? (uint64_t)strtoll(word, NULL, 10) : strtoull(word, NULL, 10);
    return kind == FMTCANON_STRING ? string : number;
}

int main(int argc, char **argv)
{
    fmtcanon_argument args[MOST];
    unsigned char kinds[MOST] = {0};
    fmtcanon_error error;
    char line[4096];
    const char *format = argc > 1 ? argv[1] : "";
    int count = argc > 2 ? argc - 2 : 0;
    if (count > MOST)
        return 2;
    fmtcanon_types(FMTCANON_NATIVE, format, strlen(format), kinds, MOST, NULL);
    for (int i = 0; i < count; i++)
        args[i] = argument(kinds[i], argv[i + 2]);
    int64_t length = fmtcanon_render(FMTCANON_NATIVE, format, strlen(format), args, (size_t)count, line, sizeof line, &error);
    if (length == FMTCANON_ERROR_COUNT)
        printf("the format takes %" PRIu64 " arguments\n", error.at);
    else if (length == FMTCANON_ERROR_TYPE)
        printf("argument %" PRIu64 " is of another type\n", error.at);
    else if (length < 0)
        printf("rejected at byte %" PRIu64 "\n", error.at);
    else if ((size_t)length < sizeof line)
        puts(line);
    return length < 0;
}
