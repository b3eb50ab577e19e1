/* Writes the canonical text of each format that it is given, or why there is none. It is that of the
 * data model LP64, or of ILP32 after the word --ilp32. This line compiles it:
 *
 *     cc -std=c99 -o canon canon.c $(pkg-config --cflags --libs fmtcanon)
 */
#include <fmtcanon.h>
#include <stdio.h>
#include <stdlib.h>
#include <string.h>

static int write_refusal(const char *format, const fmtcanon_error *error)
{
    char name[32];
    fmtcanon_kind_name(error->kind, name, sizeof name);
    printf("%s: refused: %s at byte %lu\n", format, name, (unsigned long)error->at);
    return 1;
}

static int write_canonical(int model, const char *format)
{
    fmtcanon_error error;
    size_t len = strlen(format);
    int64_t size = fmtcanon_canonical_length(model, format, len, &error);
    char *out = size < 0 ? NULL : malloc((size_t)size + 1);
    if (out != NULL)
        size = fmtcanon_canonical(model, format, len, out, (size_t)size + 1, &error);
    if (out != NULL && size >= 0)
        puts(out);
    free(out);
    if (out == NULL && size < 0 && size != FMTCANON_ERROR_NOMEMORY)
        return write_refusal(format, &error);
    if (out == NULL || size < 0) {
        puts("out of memory");
        return 1;
    }
    return 0;
}

int main(int argc, char **argv)
{
    int status = 0;
    int is_ilp32 = argc > 1 && strcmp(argv[1], "--ilp32") == 0;
    int model = is_ilp32 ? FMTCANON_ILP32 : FMTCANON_LP64;
    for (int i = 1 + is_ilp32; i < argc; i++)
        status |= write_canonical(model, argv[i]);
    return status;
}
