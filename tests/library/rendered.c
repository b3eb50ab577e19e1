/* The call that prints: its bytes against `snprintf`, its edges, its errors, and what it leaves as it was. It is linked
 * with malloc, realloc and free wrapped. */
#define _GNU_SOURCE
#include "fmtcanon.h"
#include "small_stack.h"
#include <limits.h>
#include <stdio.h>
#include <stdlib.h>
#include <string.h>
#include <sys/mman.h>

#define WANT(holds) ((holds) && growths == 0 ? (void)0 : failed(#holds, __LINE__))
#define COUNT(rows) (sizeof(rows) / sizeof *(rows))

enum { LP64 = FMTCANON_LP64, ILP32 = FMTCANON_ILP32, LLP64 = FMTCANON_LLP64, PAGE = 4096, ROOM = 16384 };

static int growths;
void *__real_malloc(size_t n);
void *__real_realloc(void *p, size_t n);
void __real_free(void *p);
void *__wrap_malloc(size_t n) { return growths++, __real_malloc(n); }
void *__wrap_realloc(void *p, size_t n) { return growths++, __real_realloc(p, n); }
void __wrap_free(void *p) { __real_free(p); }

static void failed(const char *what, int line)
{
    fprintf(stderr, "rendered.c:%d: not so, or it allocates: %s\n", line, what);
    exit(1);
}

static fmtcanon_argument number(uint32_t kind, uint64_t n)
{
    fmtcanon_argument arg = {kind, n, NULL, 0};
    return arg;
}

static fmtcanon_argument bytes(const char *text, size_t len)
{
    fmtcanon_argument arg = {FMTCANON_STRING, 0, text, len};
    return arg;
}

static fmtcanon_argument string(const char *text) { return bytes(text, strlen(text)); }

static void layout(void)
{
    WANT(sizeof(fmtcanon_argument) == 32 && offsetof(fmtcanon_argument, kind) == 0);
    WANT(offsetof(fmtcanon_argument, number) == 8 && offsetof(fmtcanon_argument, string) == 16);
    WANT(offsetof(fmtcanon_argument, len) == 24);
}

/* Prints the format into exactly enough room, and into one byte less, which stays as it was. The result is `wanted`. */
static void prints(int model, const char *text, const fmtcanon_argument *args, size_t count, const char *wanted, size_t len)
{
    static char out[ROOM + 2], unwritten[ROOM + 2];
    fmtcanon_error e = {77, 78, 79};
    size_t text_len = strlen(text);
    WANT(len < ROOM);
    memset(out, '~', sizeof out);
    memset(unwritten, '~', sizeof unwritten);
    WANT(fmtcanon_render(model, text, text_len, args, count, NULL, 0, &e) == (int64_t)len);
    WANT(fmtcanon_render(model, text, text_len, args, count, out, len, &e) == (int64_t)len);
    WANT(!memcmp(out, unwritten, sizeof out));
    WANT(fmtcanon_render(model, text, text_len, args, count, out, len + 1, &e) == (int64_t)len);
    WANT(!memcmp(out, wanted, len) && out[len] == 0 && !memcmp(out + len + 1, unwritten, sizeof out - len - 1));
    memset(out, '~', sizeof out);
    WANT(fmtcanon_render(model, text, text_len, args, count, out, sizeof out, NULL) == (int64_t)len);
    WANT(!memcmp(out, wanted, len) && out[len] == 0 && !memcmp(out + len + 1, unwritten, sizeof out - len - 1));
    WANT(e.at == 77 && e.kind == 78 && e.side == 79);
}

/* What `snprintf` prints for an argument of the type, which `prints` is to print as well. */
static void as_snprintf(const char *text, uint32_t kind, uint64_t n, const char *words)
{
    static char wanted[ROOM];
    fmtcanon_argument arg = kind == FMTCANON_STRING ? string(words) : number(kind, n);
    int len = -1;
    switch (kind) {
    case FMTCANON_INT: len = snprintf(wanted, ROOM, text, (int)(int64_t)n); break;
    case FMTCANON_UINT: len = snprintf(wanted, ROOM, text, (unsigned)n); break;
    case FMTCANON_LONG: len = snprintf(wanted, ROOM, text, (long)n); break;
    case FMTCANON_ULONG: len = snprintf(wanted, ROOM, text, (unsigned long)n); break;
    case FMTCANON_LONG_LONG: len = snprintf(wanted, ROOM, text, (long long)n); break;
    case FMTCANON_ULONG_LONG: len = snprintf(wanted, ROOM, text, (unsigned long long)n); break;
    case FMTCANON_STRING: len = snprintf(wanted, ROOM, text, words); break;
    }
    WANT(len >= 0);
    prints(LP64, text, &arg, 1, wanted, (size_t)len);
}

/* The values of a type that are tried. */
static void of_type(const char *text, uint32_t kind)
{
    static const int64_t ints[] = {0, 1, -1, 9, 10, -10, 127, 128, -128, 255, 256, 32767, -32768, 65535, 65, INT_MAX, INT_MIN};
    static const int64_t longs[] = {0, 1, -1, 100, -4294967296, 4294967295, LONG_MAX, LONG_MIN};
    static const char *const strings[] = {"", "a", "abc", "twenty bytes or more", "\xff\x80"};
    size_t i;
    if (kind == FMTCANON_STRING)
        for (i = 0; i < COUNT(strings); i++) as_snprintf(text, kind, 0, strings[i]);
    else if (kind == FMTCANON_INT)
        for (i = 0; i < COUNT(ints); i++) as_snprintf(text, kind, (uint64_t)ints[i], NULL);
    else if (kind == FMTCANON_UINT)
        for (i = 0; i < COUNT(ints); i++) as_snprintf(text, kind, (uint32_t)ints[i], NULL);
    else
        for (i = 0; i < COUNT(longs); i++) as_snprintf(text, kind, (uint64_t)longs[i], NULL);
}

/* Every directive of these parts that is accepted, and how many these are. */
static int directives(void)
{
    static const char *const flags[] = {"", "-", "+", " ", "#", "0", "'", "-+", "+0", " 0", "-#", "#0", "-+ #"};
    static const char *const widths[] = {"", "1", "4", "12", "300"};
    static const char *const precisions[] = {"", ".", ".1", ".5", ".270"};
    static const char *const lengths[] = {"", "hh", "h", "l", "ll", "j", "z", "t"};
    const char *conversion;
    size_t f, w, p, l;
    int accepted = 0;
    for (f = 0; f < COUNT(flags); f++)
        for (w = 0; w < COUNT(widths); w++)
            for (p = 0; p < COUNT(precisions); p++)
                for (l = 0; l < COUNT(lengths); l++)
                    for (conversion = "diuoxXcs"; *conversion != 0; conversion++) {
                        char text[32];
                        unsigned char type = 0;
                        int len = sprintf(text, "<%%%s%s%s%s%c>", flags[f], widths[w], precisions[p], lengths[l], *conversion);
                        if (fmtcanon_types(LP64, text, (size_t)len, &type, 1, NULL) != 1)
                            continue;
                        accepted++;
                        of_type(text, type);
                    }
    return accepted;
}

static void several(void)
{
    static char wanted[ROOM];
    fmtcanon_argument args[6] = {number(FMTCANON_INT, (uint64_t)-5), string("x y"), number(FMTCANON_ULONG, UINT64_MAX)};
    int len = snprintf(wanted, ROOM, "%d of %s: %#lx%%\n", -5, "x y", ULONG_MAX);
    prints(LP64, "%d of %s: %#lx%%\n", args, 3, wanted, (size_t)len);
    prints(LP64, "", NULL, 0, "", 0);
    prints(LP64, "100%%\n", NULL, 0, "100%\n", 5);
    /* Many bytes: the widest fields, and a string after 240 bytes. */
    len = snprintf(wanted, ROOM, "%4095d|%-4095s|%.4095lx", -5, "x y", ULONG_MAX);
    prints(LP64, "%4095d|%-4095s|%.4095lx", args, 3, wanted, (size_t)len);
    /* NUL is printed by `c` as any other byte. */
    args[0] = number(FMTCANON_INT, 256);
    prints(LP64, "a%cb", args, 1, "a\0b", 3);
    /* What a type is depends on the data model. */
    args[0] = number(FMTCANON_UINT, 4000000000u);
    prints(ILP32, "%zu", args, 1, "4000000000", 10);
    args[0] = number(FMTCANON_ULONG_LONG, UINT64_MAX);
    prints(LLP64, "%zu", args, 1, "18446744073709551615", 20);
    args[0] = number(FMTCANON_LONG, (uint64_t)INT_MIN);
    prints(LLP64, "%ld", args, 1, "-2147483648", 11);
}

/* The lengths around those from which on a text isn't gathered on the stack, into a buffer before a page without access. */
static void lengths(void)
{
    static char wanted[ROOM];
    char *pages = mmap(NULL, 2 * PAGE, PROT_READ | PROT_WRITE, MAP_PRIVATE | MAP_ANONYMOUS, -1, 0);
    int width;
    WANT(pages != MAP_FAILED && mprotect(pages + PAGE, PAGE, PROT_NONE) == 0);
    for (width = 1; width < 600; width++) {
        char text[16];
        fmtcanon_argument args[2] = {number(FMTCANON_INT, 7), string("end")};
        int text_len = sprintf(text, "%%0%dd%%s", width), len = snprintf(wanted, ROOM, text, 7, "end");
        char *out = pages + PAGE - len - 1;
        prints(LP64, text, args, 2, wanted, (size_t)len);
        WANT(fmtcanon_render(LP64, text, (size_t)text_len, args, 2, out, (size_t)len + 1, NULL) == len);
        WANT(!strcmp(out, wanted));
    }
}

/* A call that fails with this code leaves the buffer as it was, and this number in the error. */
static void refuses(int model, const char *text, const fmtcanon_argument *args, size_t count, int64_t code, uint64_t at)
{
    char out[64], unwritten[64];
    fmtcanon_error e = {77, 78, 79};
    memset(out, '~', sizeof out);
    memset(unwritten, '~', sizeof unwritten);
    WANT(fmtcanon_render(model, text, strlen(text), args, count, out, sizeof out, &e) == code);
    if (code == FMTCANON_ERROR_MODEL)
        WANT(e.at == 77 && e.kind == 78 && e.side == 79);
    else
        WANT(e.at == at && (int64_t)e.kind == -code && e.side == 0);
    WANT(fmtcanon_render(model, text, strlen(text), args, count, out, sizeof out, NULL) == code);
    WANT(!memcmp(out, unwritten, sizeof out));
}

static void wrong_types(void)
{
    static const uint32_t none[] = {0, 8, 9, 17, 103, 256 + FMTCANON_INT, UINT32_MAX};
    fmtcanon_argument args[3] = {number(FMTCANON_INT, 1), string("x"), number(FMTCANON_LONG, 2)};
    uint32_t kind;
    size_t i;
    refuses(LP64, "%s", args, 1, FMTCANON_ERROR_TYPE, 0);
    refuses(LP64, "%d%d%ld", args, 3, FMTCANON_ERROR_TYPE, 1);
    refuses(LP64, "%d%s%lu", args, 3, FMTCANON_ERROR_TYPE, 2);
    refuses(LP64, "%300d%s%lld", args, 3, FMTCANON_ERROR_TYPE, 2);
    for (i = 0; i < COUNT(none); i++) {
        args[0].kind = none[i];
        refuses(LP64, "%d", args, 1, FMTCANON_ERROR_TYPE, 0);
        refuses(LP64, "%s", args, 1, FMTCANON_ERROR_TYPE, 0);
    }
    for (kind = FMTCANON_INT; kind <= FMTCANON_STRING; kind++) {
        args[0] = number(kind, 1);
        if (kind != FMTCANON_INT) refuses(LP64, "%d", args, 1, FMTCANON_ERROR_TYPE, 0);
        if (kind != FMTCANON_UINT) refuses(LP64, "%u", args, 1, FMTCANON_ERROR_TYPE, 0);
        if (kind != FMTCANON_LONG) refuses(LP64, "%ld", args, 1, FMTCANON_ERROR_TYPE, 0);
        if (kind != FMTCANON_ULONG) refuses(LP64, "%lu", args, 1, FMTCANON_ERROR_TYPE, 0);
        if (kind != FMTCANON_LONG_LONG) refuses(LP64, "%lld", args, 1, FMTCANON_ERROR_TYPE, 0);
        if (kind != FMTCANON_ULONG_LONG) refuses(LP64, "%llu", args, 1, FMTCANON_ERROR_TYPE, 0);
        if (kind != FMTCANON_STRING) refuses(LP64, "%s", args, 1, FMTCANON_ERROR_TYPE, 0);
    }
}

/* The first numbers that are out of the range of each type, and a string with a NUL. */
static void ranges(void)
{
    static const struct {
        int model;
        const char *text;
        uint32_t kind;
        uint64_t n;
    } rows[] = {
        {LP64, "%d", FMTCANON_INT, 2147483648u}, {LP64, "%d", FMTCANON_INT, (uint64_t)INT_MIN - 1},
        {LP64, "%c", FMTCANON_INT, UINT64_C(1) << 32}, {LP64, "%hhd", FMTCANON_INT, UINT32_MAX},
        {LP64, "%u", FMTCANON_UINT, UINT64_C(1) << 32}, {LP64, "%u", FMTCANON_UINT, UINT64_MAX},
        {ILP32, "%ld", FMTCANON_LONG, 2147483648u}, {LLP64, "%ld", FMTCANON_LONG, (uint64_t)INT_MIN - 1},
        {ILP32, "%lu", FMTCANON_ULONG, UINT64_C(1) << 32}, {LLP64, "%lu", FMTCANON_ULONG, UINT64_MAX},
    };
    fmtcanon_argument args[1];
    size_t i;
    for (i = 0; i < COUNT(rows); i++) {
        args[0] = number(rows[i].kind, rows[i].n);
        refuses(rows[i].model, rows[i].text, args, 1, FMTCANON_ERROR_TYPE, 0);
    }
    args[0] = bytes("a\0b", 3);
    refuses(LP64, "%s", args, 1, FMTCANON_ERROR_TYPE, 0);
    refuses(LP64, "%.1s", args, 1, FMTCANON_ERROR_TYPE, 0);
    args[0].len = 1;
    prints(LP64, "%s", args, 1, "a", 1);
    args[0] = bytes(NULL, 0);
    prints(LP64, "%2s", args, 1, "  ", 2);
}

static void errors(void)
{
    static const int none[] = {-1, 3, INT_MAX, INT_MIN};
    fmtcanon_argument args[3] = {number(FMTCANON_INT, 1), number(FMTCANON_INT, 2), string("x")};
    size_t i;
    for (i = 0; i < COUNT(none); i++) refuses(none[i], "%y", args, 1, FMTCANON_ERROR_MODEL, 0);
    /* A refusal of the format is told first, then a wrong count, then a wrong type. */
    refuses(LP64, "%d%", args, 0, -FMTCANON_TRUNCATED, 3);
    refuses(LP64, "%1$d", args, 1, -FMTCANON_NUMBERED, 2);
    refuses(LP64, "%d %f", args, 2, -FMTCANON_FLOAT, 4);
    refuses(LP64, "%d", args, 0, FMTCANON_ERROR_COUNT, 1);
    refuses(LP64, "%d%d", args, 1, FMTCANON_ERROR_COUNT, 2);
    refuses(LP64, "%s", args, 2, FMTCANON_ERROR_COUNT, 1);
    refuses(LP64, "100%%", args, 3, FMTCANON_ERROR_COUNT, 0);
    refuses(LP64, "%4095d%s", args, 3, FMTCANON_ERROR_COUNT, 2);
}

static void in_small_stack(void)
{
    static char out[ROOM];
    fmtcanon_argument args[2] = {number(FMTCANON_INT, 1), string("x")};
    WANT(fmtcanon_render(LP64, "%4095d%.4095s", 13, args, 2, out, sizeof out, NULL) == 4096);
}

int main(void)
{
    int accepted;
    layout();
    several();
    lengths();
    wrong_types();
    ranges();
    errors();
    accepted = directives();
    WANT(on_small_stack(in_small_stack, 12 * 1024));
    printf("directives %d, printed as by snprintf\n", accepted);
    return 0;
}
