/* Writes what the library answers for the formats of a file, each ended by a zero byte: a line for
 * each format, and one for each with the format behind it, in one data model after the other, and
 * then one that says in which data models these two are the same. */
#include "fmtcanon.h"
#include <stdio.h>
#include <stdlib.h>
#include <string.h>

enum { ROOM = 1 << 20 };

static int model;
static char *whole;
static size_t whole_len;

static void stop(const char *what, size_t at)
{
    fprintf(stderr, "answers: %s, at byte %lu of the file\n", what, (unsigned long)at);
    exit(1);
}

static void *taken(size_t size)
{
    void *p = malloc(size ? size : 1);
    if (!p) stop("out of memory", 0);
    return p;
}

static void read_all(const char *path)
{
    FILE *file = fopen(path, "rb");
    if (!file) stop("the file can't be opened", 0);
    whole = taken(ROOM);
    whole_len = fread(whole, 1, ROOM, file);
    if (whole_len == ROOM) stop("the file is too long", 0);
    fclose(file);
}

/* Just the bytes of a format, so that a read behind them is seen; NULL where there are none. */
static char *copy_of(size_t at, size_t len)
{
    char *text = len ? taken(len) : NULL;
    if (len) memcpy(text, whole + at, len);
    return text;
}

static void write_hex(const char *bytes, size_t len)
{
    size_t k;
    putchar(' ');
    for (k = 0; k < len; k++) printf("%02x", (unsigned char)bytes[k]);
}

static int all_are(const char *bytes, size_t from, size_t to, char wanted)
{
    for (; from < to; from++)
        if (bytes[from] != wanted) return 0;
    return 1;
}

static void refused(const fmtcanon_error *error, int64_t result, size_t at)
{
    char name[32];
    uint64_t len = fmtcanon_kind_name(error->kind, name, sizeof name);
    if (len != strlen(name) || fmtcanon_kind_name(error->kind, NULL, 0) != len) stop("name", at);
    if (error->kind != (uint32_t)-result) stop("kind", at);
    printf("refused %u %s at %lu side %u\n", (unsigned)error->kind, name,
           (unsigned long)error->at, (unsigned)error->side);
}

static int is_untouched(const fmtcanon_error *error)
{
    return error->at == 77 && error->kind == 78 && error->side == 79;
}

static void canonical_of(const char *text, size_t len, size_t at)
{
    fmtcanon_error error = {77, 78, 79};
    int own;
    size_t n = (size_t)fmtcanon_canonical_length(model, text, len, &error);
    char *out = taken(n + 3);
    memset(out, 'Z', n + 3);
    if (fmtcanon_canonical(model, text, len, NULL, 0, &error) != (int64_t)n) stop("length", at);
    if (fmtcanon_canonical(model, text, len, out, n, &error) != (int64_t)n) stop("small", at);
    if (!all_are(out, 0, n + 3, 'Z')) stop("written without room", at);
    if (fmtcanon_canonical(model, text, len, out, n + 1, &error) != (int64_t)n) stop("fits", at);
    if (out[n] != 0 || !all_are(out, n + 1, n + 3, 'Z')) stop("the end", at);
    if (fmtcanon_is_canonical(model, out, n, &error) != 1) stop("its own", at);
    own = n == len && (!n || !memcmp(out, text, n));
    if (fmtcanon_is_canonical(model, text, len, &error) != own) stop("is canonical", at);
    if (fmtcanon_same(model, text, len, out, n, &error) != 1) stop("same as its own", at);
    if (!is_untouched(&error)) stop("error", at);
    write_hex(out, n);
    free(out);
}

static void types_of(const char *text, size_t len, size_t at)
{
    fmtcanon_error error = {77, 78, 79};
    size_t n = (size_t)fmtcanon_types(model, text, len, NULL, 0, &error), k;
    unsigned char *out = taken(n + 1);
    memset(out, 'Z', n + 1);
    if (n && fmtcanon_types(model, text, len, out, n - 1, &error) != (int64_t)n) stop("few", at);
    if (out[0] != 'Z') stop("types without room", at);
    if (fmtcanon_types(model, text, len, out, n, &error) != (int64_t)n) stop("types", at);
    if (out[n] != 'Z') stop("behind the types", at);
    if (!is_untouched(&error)) stop("error", at);
    putchar(' ');
    for (k = 0; k < n; k++) printf("%u", (unsigned)out[k]);
    putchar('\n');
    free(out);
}

static void one(const char *text, size_t len, size_t at)
{
    fmtcanon_error error = {77, 78, 79}, again = {1, 2, 3};
    int64_t result = fmtcanon_check(text, len, &error);
    if (result < 0) {
        if (fmtcanon_canonical(model, text, len, NULL, 0, &again) != result || again.at != error.at)
            stop("canonical of a refused text", at);
        if (fmtcanon_types(model, text, len, NULL, 0, &again) != result || again.at != error.at)
            stop("types of a refused text", at);
        refused(&error, result, at);
        return;
    }
    if (result != 0 || !is_untouched(&error)) stop("check", at);
    printf("canonical");
    canonical_of(text, len, at);
    types_of(text, len, at);
}

static void two(const char *f, size_t f_len, const char *g, size_t g_len, size_t at)
{
    fmtcanon_error error = {77, 78, 79};
    fmtcanon_comparison found = {77, 78, 79};
    int64_t same = fmtcanon_same(model, f, f_len, g, g_len, &error), n, again;
    char *out;
    n = fmtcanon_compare(model, f, f_len, g, g_len, NULL, 0, &found, &error);
    if (same < 0) {
        if (n != same || found.number != 77 || found.verdict != 78) stop("compare, refused", at);
        refused(&error, same, at);
        return;
    }
    if (n < 0 || (found.verdict == FMTCANON_SAME) != (same == 1)) stop("compare", at);
    out = taken((size_t)n + 1);
    memset(out, 'Z', (size_t)n + 1);
    if (n) {
        again = fmtcanon_compare(model, f, f_len, g, g_len, out, (size_t)n - 1, &found, &error);
        if (again != n || !all_are(out, 0, (size_t)n + 1, 'Z')) stop("words without room", at);
    }
    again = fmtcanon_compare(model, f, f_len, g, g_len, out, (size_t)n, &found, &error);
    if (again != n || out[n] != 'Z') stop("words", at);
    if (n && out[n - 1] != 0) stop("the end of the words", at);
    if (!is_untouched(&error)) stop("error", at);
    printf("verdict %u %lu", (unsigned)found.verdict, (unsigned long)found.number);
    write_hex(out, (size_t)n);
    putchar('\n');
    free(out);
}

static void in_which(const char *f, size_t f_len, const char *g, size_t g_len, size_t at)
{
    fmtcanon_error error = {77, 78, 79};
    int64_t models = fmtcanon_same_models(f, f_len, g, g_len, &error);
    if (models < 0) {
        refused(&error, models, at);
        return;
    }
    if (!is_untouched(&error)) stop("error", at);
    printf("models %lu\n", (unsigned long)models);
}

int main(int argc, char **argv)
{
    size_t at = 0;
    if (argc != 2) return 2;
    read_all(argv[1]);
    while (at < whole_len) {
        size_t len = strlen(whole + at), next = at + len + 1;
        size_t next_len = next < whole_len ? strlen(whole + next) : 0;
        char *f = copy_of(at, len), *g = copy_of(next, next_len);
        for (model = FMTCANON_LP64; model <= FMTCANON_LLP64; model++) {
            one(f, len, at);
            two(f, len, g, next_len, at);
        }
        in_which(f, len, g, next_len, at);
        free(f);
        free(g);
        at = next;
    }
    free(whole);
    return 0;
}
