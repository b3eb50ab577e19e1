/* Writes each conversion specification of a format, and the arguments that it takes. This line compiles it:
 *
 *     cc -std=c99 -o directives directives.c $(pkg-config --cflags --libs fmtcanon)
 */
#include <fmtcanon.h>
#include <inttypes.h>
#include <stdio.h>
#include <stdlib.h>
#include <string.h>

static void write_directive(const char *format, const fmtcanon_directive *one)
{
    printf("%.*s: argument %" PRIu64 " of type %" PRIu64, (int)(one->end - one->begin), format + one->begin,
           one->argument, one->kind);
    if (one->width_argument != FMTCANON_NO_ARGUMENT)
        printf(", width %" PRIu64, one->width_argument);
    if (one->precision_argument != FMTCANON_NO_ARGUMENT)
        printf(", precision %" PRIu64, one->precision_argument);
    puts("");
}

int main(int argc, char **argv)
{
    if (argc != 2)
        return 2;
    const char *format = argv[1];
    size_t len = strlen(format);
    fmtcanon_error error;
    int64_t count = fmtcanon_directives(FMTCANON_LP64, format, len, NULL, 0, &error);
    fmtcanon_directive *out = count > 0 ? calloc((size_t)count, sizeof *out) : NULL;
    if (out != NULL)
        count = fmtcanon_directives(FMTCANON_LP64, format, len, out, (size_t)count, &error);
    if (count == FMTCANON_ERROR_NOMEMORY || (count > 0 && out == NULL))
        puts("out of memory");
    else if (count < 0)
        printf("rejected at byte %" PRIu64 "\n", error.at);
    for (int64_t at = 0; out != NULL && at < count; at++)
        write_directive(format, &out[at]);
    free(out);
    return 0;
}
