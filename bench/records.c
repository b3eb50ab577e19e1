/* What a program does that answers records by calls of the library: it reads them from standard input
 * and writes the replies of `fmtcanon canon -z` or `same -z`, also with `--whole`, or of `types --whole -z`.
 * And calls about string literals, made many times.
 *
 *     records canon | records same              on records of standard input
 *     records canon whole | records same whole  on those of the whole language
 *     records types whole                       the same
 *     records decode N | records encode N       N calls, on all of standard input
 */
#include "fmtcanon.h"
#include <stdio.h>
#include <stdlib.h>
#include <string.h>

static char *record, *other, *out;
static size_t record_room, other_room, out_room = 1 << 16;
static __typeof__(fmtcanon_canonical) *canonical = fmtcanon_canonical;
static __typeof__(fmtcanon_compare) *compare = fmtcanon_compare;

/* One record, without its zero byte; -1 at the end. */
static long next(char **text, size_t *room)
{
    long size = getdelim(text, room, 0, stdin);
    return size > 0 && (*text)[size - 1] == 0 ? size - 1 : size;
}

static void refuse(const fmtcanon_error *e, const char *front)
{
    char name[32];
    fmtcanon_kind_name(e->kind, name, sizeof name);
    printf("2 %srefused %u %s at byte %llu%c", front, (unsigned)e->kind, name, (unsigned long long)e->at, 0);
}

static void canon(void)
{
    long size;
    while ((size = next(&record, &record_room)) >= 0) {
        fmtcanon_error e;
        int64_t len = canonical(FMTCANON_LP64, record, (size_t)size, out, out_room, &e);
        if (len >= (int64_t)out_room) {
            out = realloc(out, out_room = 2 * (size_t)len);
            len = canonical(FMTCANON_LP64, record, (size_t)size, out, out_room, &e);
        }
        if (len < 0) {
            refuse(&e, "");
            continue;
        }
        fputs("0 ", stdout);
        /* The zero after the text ends the reply. */
        fwrite(out, 1, (size_t)len + 1, stdout);
    }
}

/* The words of arguments, each in a line; the zero after the last one ends the reply. */
static void put_words(int64_t len)
{
    fputs("1 different", stdout);
    for (char *word = out; word < out + len; word += strlen(word) + 1)
        printf("\n%s", word);
    putchar(0);
}

static void same(void)
{
    long size, more;
    while ((size = next(&record, &record_room)) >= 0 && (more = next(&other, &other_room)) >= 0) {
        fmtcanon_error e;
        fmtcanon_comparison found;
        int64_t len = compare(FMTCANON_LP64, record, (size_t)size, other, (size_t)more, out, out_room, &found, &e);
        if (len < 0)
            refuse(&e, e.side ? "second: " : "first: ");
        else if (found.verdict == FMTCANON_SAME)
            fwrite("0 same", 1, 7, stdout);
        else if (found.verdict == FMTCANON_TYPES)
            printf("1 types differ at argument %llu%c", (unsigned long long)found.number, 0);
        else if (found.verdict == FMTCANON_DIRECTIVES)
            printf("1 directives differ at argument %llu%c", (unsigned long long)found.number, 0);
        else
            put_words(len);
    }
}

static void types(void)
{
    static const char *const names[] = {
        "",           "int",           "unsigned int",    "long",             "unsigned long",   "long long",
        "unsigned long long", "string", "double",         "long double",      "wide character",  "wide string",
        "pointer",    "pointer to signed char", "pointer to short", "pointer to int", "pointer to long",
        "pointer to long long",
    };
    unsigned char *kinds = (unsigned char *)out;
    long size;
    while ((size = next(&record, &record_room)) >= 0) {
        fmtcanon_error e;
        int64_t count = fmtcanon_arguments(FMTCANON_LP64, record, (size_t)size, kinds, out_room, &e);
        if (count < 0) {
            refuse(&e, "");
            continue;
        }
        fputs("0 ", stdout);
        for (int64_t i = 0; i < count; i++) {
            if (i > 0) putchar('\n');
            fputs(names[kinds[i]], stdout);
        }
        putchar(0);
    }
}

static void calls(int decodes, long count)
{
    size_t size = fread(out, 1, out_room, stdin);
    char *text = malloc(4 * size + 3);
    fmtcanon_error e;
    for (; count > 0; count--) {
        int64_t len = decodes ? fmtcanon_decode_literal(out, size, text, 4 * size + 3, &e)
                              : fmtcanon_encode_literal(out, size, text, 4 * size + 3);
        if (len < 0) exit(1);
    }
}

int main(int argc, char **argv)
{
    out = malloc(out_room);
    if (argc == 3 && !strcmp(argv[2], "whole")) {
        canonical = fmtcanon_whole_canonical, compare = fmtcanon_whole_compare;
        argc = 2;
    }
    if (argc == 2 && !strcmp(argv[1], "canon"))
        canon();
    else if (argc == 2 && !strcmp(argv[1], "same"))
        same();
    else if (argc == 2 && !strcmp(argv[1], "types"))
        types();
    else if (argc == 3)
        calls(!strcmp(argv[1], "decode"), atol(argv[2]));
    else
        return 2;
    return 0;
}
