/* The call about the number of bytes that a format prints: its numbers, its errors, and what it leaves as it was. Expected
 * numbers are worked out by hand. It is linked with malloc, realloc and free wrapped. */
#define _GNU_SOURCE
#include "fmtcanon.h"
#include "small_stack.h"
#include <stdio.h>
#include <stdlib.h>
#include <string.h>
#include <sys/mman.h>

#define WANT(holds) ((holds) && growths == 0 ? (void)0 : failed(#holds, __LINE__))
#define COUNT(rows) (sizeof(rows) / sizeof *(rows))

enum { LP64 = FMTCANON_LP64, ILP32 = FMTCANON_ILP32, LLP64 = FMTCANON_LLP64, PAGE = 4096, DIRECTIVES = 1100000 };
static const uint64_t NONE = FMTCANON_UNBOUNDED;

static int growths;
void *__real_malloc(size_t n);
void *__real_realloc(void *p, size_t n);
void __real_free(void *p);
void *__wrap_malloc(size_t n) { return growths++, __real_malloc(n); }
void *__wrap_realloc(void *p, size_t n) { return growths++, __real_realloc(p, n); }
void __wrap_free(void *p) { __real_free(p); }

static void failed(const char *what, int line)
{
    fprintf(stderr, "bounds.c:%d: not so, or it allocates: %s\n", line, what);
    exit(1);
}

/* A format in a data model, and how many bytes it prints. */
static const struct {
    int model;
    const char *text;
    uint64_t least, greatest;
} ROWS[] = {
    {LP64, "", 0, 0},
    {LP64, "100%%\n", 5, 5},
    {LP64, "%d", 1, 11},
    {LP64, "%u", 1, 10},
    {LP64, "%ld", 1, 20},
    {ILP32, "%ld", 1, 11},
    {LLP64, "%ld", 1, 11},
    {LP64, "%zu", 1, 20},
    {ILP32, "%zu", 1, 10},
    {LLP64, "%zu", 1, 20},
    {ILP32, "%jd", 1, 20},
    {LP64, "%hhd", 1, 4},
    {LP64, "%hhu", 1, 3},
    {LP64, "%hd", 1, 6},
    {LP64, "%hu", 1, 5},
    /* The sign of a negative number, or of each. */
    {LP64, "%+d", 2, 11},
    {LP64, "% hhd", 2, 4},
    /* No digit of 0. */
    {LP64, "%.0d", 0, 11},
    {LP64, "%+.0d", 1, 11},
    {LP64, "%.0x", 0, 8},
    {LP64, "%.15d", 15, 16},
    /* No prefix of 0; for `o` it is a digit. */
    {LP64, "%#x", 1, 10},
    {LP64, "%#o", 1, 12},
    {LP64, "%#.0o", 1, 12},
    {LP64, "%#b", 1, 34},
    {LP64, "%hhb", 1, 8},
    /* A width is the least, and may be the most. */
    {LP64, "%5d", 5, 11},
    {LP64, "%-20d|", 21, 21},
    {LP64, "%04095d", 4095, 4095},
    {LP64, "%c", 1, 1},
    {LP64, "%7c", 7, 7},
    {LP64, "%s", 0, FMTCANON_UNBOUNDED},
    {LP64, "%9s", 9, FMTCANON_UNBOUNDED},
    {LP64, "%.3s", 0, 3},
    {LP64, "%.0s", 0, 0},
    {LP64, "[%5.3s]", 7, 7},
    {LP64, "%.3s %c%%", 3, 6},
    {LP64, "id=%s of %d", 8, FMTCANON_UNBOUNDED},
};

/* The last `len` bytes before a page that can't be touched. */
static char *at_end(size_t len)
{
    static char *end;
    if (end == NULL) {
        char *p = mmap(NULL, 2 * PAGE, PROT_READ | PROT_WRITE, MAP_PRIVATE | MAP_ANONYMOUS, -1, 0);
        WANT(p != MAP_FAILED && !mprotect(p + PAGE, PAGE, PROT_NONE));
        end = p + PAGE;
    }
    return end - len;
}

static void numbers(void)
{
    fmtcanon_error e = {77, 78, 79};
    size_t i;
    for (i = 0; i < COUNT(ROWS); i++) {
        size_t len = strlen(ROWS[i].text);
        char *text = at_end(len);
        struct fmtcanon_bounds b[2] = {{77, 78}, {79, 80}};
        memcpy(text, ROWS[i].text, len);
        if (fmtcanon_bounds(ROWS[i].model, text, len, b, &e) != 0 || b->least != ROWS[i].least || b->greatest != ROWS[i].greatest)
            failed(ROWS[i].text, __LINE__);
        WANT(b[1].least == 79 && b[1].greatest == 80);
        WANT(fmtcanon_bounds(ROWS[i].model, text, len, b + 1, NULL) == 0 && !memcmp(b, b + 1, sizeof *b));
    }
    WANT(e.at == 77 && e.kind == 78 && e.side == 79);
}

static void layout(void)
{
    struct fmtcanon_bounds b;
    WANT(sizeof b == 16 && offsetof(struct fmtcanon_bounds, least) == 0 && offsetof(struct fmtcanon_bounds, greatest) == 8);
    WANT(FMTCANON_UNBOUNDED == (uint64_t)-1);
    WANT(fmtcanon_bounds(LP64, NULL, 0, &b, NULL) == 0 && b.least == 0 && b.greatest == 0);
    WANT(fmtcanon_bounds(LP64, "%5d junk %", 3, &b, NULL) == 0 && b.least == 5 && b.greatest == 11);
}

/* What fails leaves the bounds as they were. */
static void errors(void)
{
    static const int none[] = {-1, 3, 0x7fffffff, -0x7fffffff - 1};
    static const struct {
        const char *text;
        int kind;
        uint64_t at;
    } refused[] = {
        {"%d%", FMTCANON_TRUNCATED, 3}, {"%s %*d", FMTCANON_STAR, 4}, {"%1$d", FMTCANON_NUMBERED, 2}, {"%f", FMTCANON_FLOAT, 1},
        {"%4096d", FMTCANON_WIDTH_TOO_LARGE, 4}, {"%p", FMTCANON_POINTER, 1}, {"%#d", FMTCANON_ALT_UNDEFINED, 2},
    };
    struct fmtcanon_bounds b = {77, 78};
    fmtcanon_error e = {77, 78, 79};
    size_t i;
    for (i = 0; i < COUNT(none); i++) WANT(fmtcanon_bounds(none[i], "%y", 2, &b, &e) == FMTCANON_ERROR_MODEL);
    WANT(e.at == 77 && e.kind == 78 && e.side == 79);
    for (i = 0; i < COUNT(refused); i++) {
        size_t len = strlen(refused[i].text);
        WANT(fmtcanon_bounds(LP64, refused[i].text, len, &b, &e) == -refused[i].kind);
        WANT(e.at == refused[i].at && e.kind == (uint32_t)refused[i].kind && e.side == 0);
        WANT(fmtcanon_bounds(LP64, refused[i].text, len, &b, NULL) == -refused[i].kind);
    }
    WANT(fmtcanon_bounds(LP64, "a\0b", 3, &b, &e) == -FMTCANON_NUL_BYTE && e.at == 1);
    WANT(b.least == 77 && b.greatest == 78);
}

/* Sums above 2^32, and one string without a bound among many directives. */
static void sums(void)
{
    static char text[6 * DIRECTIVES + 6];
    struct fmtcanon_bounds b;
    size_t at = 0, k;
    for (k = 0; k < DIRECTIVES; k++, at += 6) memcpy(text + at, "%4095c", 6);
    WANT(fmtcanon_bounds(LP64, text, at, &b, NULL) == 0);
    WANT(b.least > UINT32_MAX && b.least == (uint64_t)4095 * DIRECTIVES && b.greatest == b.least);
    memcpy(text + at, "%hhd%s", 6);
    WANT(fmtcanon_bounds(LP64, text, at + 4, &b, NULL) == 0);
    WANT(b.least == (uint64_t)4095 * DIRECTIVES + 1 && b.greatest == (uint64_t)4095 * DIRECTIVES + 4);
    WANT(fmtcanon_bounds(LP64, text, at + 6, &b, NULL) == 0);
    WANT(b.least == (uint64_t)4095 * DIRECTIVES + 1 && b.greatest == NONE);
}

static void in_small_stack(void)
{
    static struct fmtcanon_bounds b;
    fmtcanon_bounds(LP64, "%4095d%.4095s%#o%zd", 19, &b, NULL);
}

int main(void)
{
    layout();
    numbers();
    errors();
    sums();
    WANT(on_small_stack(in_small_stack, 20 * 1024));
    puts("the numbers of bytes are as the header says");
    return 0;
}
