/* Writes a checksum of all that the library answers about each format of a file, and about it with the next one: a line for
 * each. The file has the length of each format in four bytes before it. answers.mjs does the same with the module. */
#include "fmtcanon.h"
#include <stdio.h>
#include <stdlib.h>

enum { ROOM = 1 << 20, MOST = 2000 };

static unsigned long long answers;
static uint32_t sum;
static char text[ROOM], other[ROOM], out[ROOM], source[ROOM];
static size_t len, other_len;

static void put(const void *bytes, size_t size)
{
    const unsigned char *at = bytes;
    for (; size > 0; size--) sum = (sum ^ *at++) * 16777619u;
}

/* What a call returns, and then what it writes. */
static void told(int64_t result, const void *written, size_t size)
{
    answers++;
    put(&result, sizeof result);
    put(written, size);
}

static void ask(int64_t result, const fmtcanon_error *error, size_t unit)
{
    told(result, error, sizeof *error);
    if (result > 0) put(out, (size_t)result * unit);
}

#define ASK(unit, name, ...) \
    do { \
        fmtcanon_error error = {0, 0, 0}; \
        int64_t result = fmtcanon_##name(__VA_ARGS__, &error); \
        ask(result, &error, unit); \
    } while (0)

static void record(int64_t result, const fmtcanon_error *error, const void *bytes, size_t size)
{
    ask(result, error, 0);
    put(bytes, size);
}

/* Three lists of arguments of the types of a format. */
static void render(int model, const unsigned char *kinds, size_t count)
{
    static fmtcanon_argument args[MOST];
    static const char *const strings[] = {"", "hello, world", "a"};
    size_t list, k;
    for (list = 0; list < 3; list++) {
        for (k = 0; k < count; k++) {
            int kind = kinds[k], is_narrow = kind <= 2 || (kind <= 4 && model);
            uint64_t largest = kind % 2 || !is_narrow ? UINT64_MAX : UINT32_MAX;
            uint64_t number = list == 0 ? 0 : list == 1 ? largest : 12345 + k;
            const char *string = strings[list];
            fmtcanon_argument of_string = {FMTCANON_STRING, 0, string, strlen(string)};
            fmtcanon_argument of_number = {(uint32_t)kind, number, NULL, 0};
            args[k] = kind == FMTCANON_STRING ? of_string : of_number;
        }
        ASK(1, render, model, text, len, args, count, out, ROOM);
    }
}

static void ask_of_one(int model)
{
    struct fmtcanon_bounds bounds = {0, 0};
    fmtcanon_specification rejected;
    fmtcanon_error error = {0, 0, 0};
    static unsigned char kinds[ROOM];
    int64_t count;
    ASK(0, is_canonical, model, text, len);
    ASK(0, canonical_length, model, text, len);
    ASK(1, canonical, model, text, len, out, ROOM);
    ASK(0, whole_canonical_length, model, text, len);
    ASK(1, whole_canonical, model, text, len, out, ROOM);
    ASK(1, arguments, model, text, len, (unsigned char *)out, ROOM);
    ASK(sizeof(fmtcanon_directive), directives, model, text, len, (fmtcanon_directive *)out, ROOM / sizeof(fmtcanon_directive));
    memset(&rejected, 0, sizeof rejected);
    ASK(sizeof rejected, specifications, model, text, len, (fmtcanon_specification *)out, ROOM / sizeof rejected, &rejected);
    put(&rejected, sizeof rejected);
    count = fmtcanon_bounds(model, text, len, &bounds, &error);
    record(count, &error, &bounds, sizeof bounds);
    ASK(1, types, model, text, len, (unsigned char *)out, ROOM);
    count = fmtcanon_types(model, text, len, kinds, ROOM, NULL);
    if (count >= 0 && count <= MOST) render(model, kinds, (size_t)count);
}

static void ask_of_literals(void)
{
    int64_t size = fmtcanon_encode_literal(text, len, source, ROOM);
    size_t at[3];
    int k;
    told(size, source, (size_t)size);
    ASK(1, decode_literal, source, (size_t)size, out, ROOM);
    ASK(1, decode_literal, text, len, out, ROOM);
    at[0] = len / 2, at[1] = len, at[2] = len + 1;
    for (k = 0; k < 3; k++) told(fmtcanon_source_offset(source, (size_t)size, at[k]), NULL, 0);
}

#define BOTH text, len, other, other_len

static void compare(int model, int64_t (*call)(int, const char *, size_t, const char *, size_t, char *, size_t,
                                               fmtcanon_comparison *, fmtcanon_error *))
{
    fmtcanon_comparison comparison = {0, 0, 0};
    fmtcanon_error error = {0, 0, 0};
    int64_t size = call(model, BOTH, out, ROOM, &comparison, &error);
    ask(size, &error, 1);
    put(&comparison, sizeof comparison);
}

static void ask_of_two(void)
{
    int model;
    ASK(0, same_models, BOTH);
    ASK(0, whole_same_models, BOTH);
    ASK(0, fits_models, BOTH);
    ASK(0, fits_fewer_models, BOTH);
    for (model = 0; model < 3; model++) {
        ASK(0, same, model, BOTH);
        ASK(0, whole_same, model, BOTH);
        ASK(0, fits, model, BOTH);
        ASK(0, fits_fewer, model, BOTH);
        compare(model, fmtcanon_compare);
        compare(model, fmtcanon_whole_compare);
    }
}

static int next_of(FILE *file)
{
    uint32_t size;
    if (fread(&size, sizeof size, 1, file) != 1) return 0;
    other_len = size;
    return size < ROOM / 4 && fread(other, 1, size, file) == size;
}

int main(int argc, char **argv)
{
    FILE *file = argc == 2 ? fopen(argv[1], "rb") : NULL;
    uint32_t kind;
    int model, more = file != NULL && next_of(file);
    while (more) {
        memcpy(text, other, other_len);
        len = other_len;
        more = next_of(file);
        sum = 2166136261u;
        ASK(0, check, text, len);
        for (model = 0; model < 4; model++) ask_of_one(model);
        ask_of_literals();
        if (more) ask_of_two();
        printf("%08x\n", sum);
    }
    for (kind = 0; kind < 300; kind++) {
        uint64_t size = fmtcanon_kind_name(kind, out, ROOM);
        sum = 2166136261u;
        told((int64_t)size, out, (size_t)size);
        printf("%08x\n", sum);
    }
    printf("version %u, %llu answers\n", fmtcanon_version(), answers);
    return 0;
}
