/* The calls about formats from outside: in which data models a format may be used with the arguments of another one, their
 * errors, and which of two formats fmtcanon_fmtcheck returns. Expected answers are worked out by hand. It is linked with
 * malloc, realloc and free wrapped. */
#define _GNU_SOURCE
#include "fmtcanon.h"
#include "small_stack.h"
#include <stdio.h>
#include <stdlib.h>
#include <string.h>
#include <sys/mman.h>

#define WANT(holds) ((holds) && growths == 0 ? (void)0 : failed(#holds, __LINE__))
#define COUNT(rows) (sizeof(rows) / sizeof *(rows))

enum {
    LP64 = FMTCANON_LP64, ILP32 = FMTCANON_ILP32, LLP64 = FMTCANON_LLP64, PAGE = 4096,
    NEITHER = FMTCANON_IN_NEITHER, ALL = FMTCANON_IN_ALL
};

static int growths;
void *__real_malloc(size_t n);
void *__real_realloc(void *p, size_t n);
void __real_free(void *p);
void *__wrap_malloc(size_t n) { return growths++, __real_malloc(n); }
void *__wrap_realloc(void *p, size_t n) { return growths++, __real_realloc(p, n); }
void __wrap_free(void *p) { __real_free(p); }

static void failed(const char *what, int line)
{
    fprintf(stderr, "fewer.c:%d: not so, or it allocates: %s\n", line, what);
    exit(1);
}

/* Two formats, and in which data models the second takes a beginning of the types of the first, and in which the first
 * takes one of those of the second. Both are so if and only if the second takes just these types. */
static const struct {
    const char *first, *second;
    int models, reverse;
} ROWS[] = {
    {"", "", ALL, ALL},
    {"%d", "", ALL, NEITHER},
    {"100%%", "%d", NEITHER, ALL},
    {"%d files in %s", "one file", ALL, NEITHER},
    {"%d files in %s", "%d", ALL, NEITHER},
    {"%d files in %s", "%s", NEITHER, NEITHER},
    {"%d files in %s", "%d%d", NEITHER, NEITHER},
    {"%d files in %s", "%2$s: %1$d", ALL, ALL},
    {"%d", "%d%n", NEITHER, ALL},
    {"%s: %d", "%1$s", ALL, NEITHER},
    {"%s: %d", "%1$s%1$s", ALL, NEITHER},
    {"%*.*f", "%*d", ALL, NEITHER},
    {"%*d%s", "%d%c%%", ALL, NEITHER},
    {"%u", "%d", NEITHER, NEITHER},
    {"%x%lc%ls", "%u%C", ALL, NEITHER},
    {"%zu", "%lu", FMTCANON_IN_LP64, FMTCANON_IN_LP64},
    {"%zu%s", "%lu", FMTCANON_IN_LP64, NEITHER},
    {"%zu%s", "%u", FMTCANON_IN_ILP32, NEITHER},
    {"%jd%s", "%lld", FMTCANON_IN_ILP32 + FMTCANON_IN_LLP64, NEITHER},
    {"%p", "%s", NEITHER, NEITHER},
    {"%f%Lf", "%g", ALL, NEITHER},
    {"%d%d%d%d%d%d%d%d%d%d%d%d%d%d%d%d%d%d%d%d%d%d%d%d%d%d%d%d%d%d%d%d%d%d%s",
     "%d%d%d%d%d%d%d%d%d%d%d%d%d%d%d%d%d%d%d%d%d%d%d%d%d%d%d%d%d%d%d%d%d%d", ALL, NEITHER},
};

/* A text just before a page that can't be touched: of two, each has a page of its own. */
static char *at_end(const char *text, int which)
{
    static char *ends[2];
    size_t len = strlen(text);
    if (ends[which] == NULL) {
        char *p = mmap(NULL, 2 * PAGE, PROT_READ | PROT_WRITE, MAP_PRIVATE | MAP_ANONYMOUS, -1, 0);
        WANT(p != MAP_FAILED && !mprotect(p + PAGE, PAGE, PROT_NONE));
        ends[which] = p + PAGE;
    }
    return memcpy(ends[which] - len, text, len);
}

/* The set of data models in which the second fits, by the call for one of them, and by the call for all. */
static void try_pair(const char *first, const char *second, int models)
{
    fmtcanon_error e = {77, 78, 79};
    size_t n = strlen(first), m = strlen(second);
    const char *f = at_end(first, 0), *g = at_end(second, 1);
    int model, found = 0;
    for (model = LP64; model <= LLP64; model++) found |= (int)fmtcanon_fits_fewer(model, f, n, g, m, &e) << model;
    if (found != models || fmtcanon_fits_fewer_models(f, n, g, m, &e) != models) failed(second, __LINE__);
    WANT(fmtcanon_fits_fewer_models(f, n, g, m, NULL) == models);
    WANT(e.at == 77 && e.kind == 78 && e.side == 79);
}

static void pairs(void)
{
    size_t i;
    for (i = 0; i < COUNT(ROWS); i++) {
        const char *f = ROWS[i].first, *g = ROWS[i].second;
        try_pair(f, g, ROWS[i].models);
        try_pair(g, f, ROWS[i].reverse);
        WANT(fmtcanon_fits_models(f, strlen(f), g, strlen(g), NULL) == (ROWS[i].models & ROWS[i].reverse));
    }
    WANT(fmtcanon_fits_fewer(LP64, NULL, 0, NULL, 0, NULL) == 1 && fmtcanon_fits_fewer_models(NULL, 0, NULL, 0, NULL) == ALL);
    WANT(fmtcanon_fits_fewer(LP64, "%d%s", 2, "%d%s", 2, NULL) == 1 && fmtcanon_fits_fewer(LP64, "%d%s", 2, "%d%s", 4, NULL) == 0);
}

static void errors(void)
{
    static const int none[] = {-1, 3, 0x7fffffff, -0x7fffffff - 1};
    static const struct {
        const char *text;
        int kind;
        uint64_t at;
    } refused[] = {
        {"%2$d", FMTCANON_MISSING_ARGUMENT, 4}, {"%d%1$d", FMTCANON_MIXED, 4}, {"%1$d%1$s", FMTCANON_TWO_TYPES, 7},
        {"%5n", FMTCANON_COUNT_UNDEFINED, 2},   {"100%", FMTCANON_TRUNCATED, 4}, {"%y", FMTCANON_UNEXPECTED, 1},
    };
    fmtcanon_error e = {77, 78, 79};
    size_t i;
    for (i = 0; i < COUNT(none); i++) WANT(fmtcanon_fits_fewer(none[i], "%y", 2, "%y", 2, &e) == FMTCANON_ERROR_MODEL);
    WANT(e.at == 77 && e.kind == 78 && e.side == 79);
    for (i = 0; i < COUNT(refused); i++) {
        const char *t = refused[i].text;
        size_t n = strlen(t);
        int kind = refused[i].kind;
        uint64_t at = refused[i].at;
        WANT(fmtcanon_fits_fewer(LP64, "%d%s", 4, t, n, &e) == -kind && e.at == at && e.kind == (uint32_t)kind && e.side == 1);
        WANT(fmtcanon_fits_fewer(LP64, t, n, "%y", 2, &e) == -kind && e.at == at && e.kind == (uint32_t)kind && e.side == 0);
        WANT(fmtcanon_fits_fewer_models("%d%s", 4, t, n, &e) == -kind && e.at == at && e.side == 1);
        WANT(fmtcanon_fits_fewer_models(t, n, "%y", 2, &e) == -kind && e.at == at && e.side == 0);
        WANT(fmtcanon_fits_fewer(LP64, t, n, "", 0, NULL) == -kind && fmtcanon_fits_fewer_models("", 0, t, n, NULL) == -kind);
    }
    /* Two types in ILP32 alone: it is refused there, though LP64 has taken both. */
    WANT(fmtcanon_fits_fewer_models("%lu%d", 5, "%1$zu %1$lu", 11, &e) == -FMTCANON_TWO_TYPES && e.at == 10 && e.side == 1);
    WANT(fmtcanon_fits_fewer(LP64, "%lu%d", 5, "%1$zu %1$lu", 11, &e) == 1);
}

/* A format from outside, the one of the program, and whether the first may be used in its place. */
static const struct {
    const char *suspect, *fallback;
    int is_used;
} CHECKED[] = {
    {"%d of %s", "%d of %s", 1},  {"%2$s: %1$d", "%d of %s", 1}, {"nothing", "%d of %s", 1}, {"%-5i", "%d of %s", 1},
    {"%s of %d", "%d of %s", 0},  {"%d of %s%n", "%d of %s", 0}, {"%d %s %s", "%d of %s", 0}, {"%", "%d of %s", 0},
    {"%2$s", "%d of %s", 0},      {"%zu", "%lu", 1},             {"%zu", "%llu", 0},         {"%f", "%a", 1},
    {"%d", "%y", 0},              {"", "", 1},                   {NULL, "%d", 0},            {NULL, "%y", 0},
};

static void checked(void)
{
    size_t i;
    WANT(FMTCANON_NATIVE == FMTCANON_LP64);
    for (i = 0; i < COUNT(CHECKED); i++) {
        const char *suspect = CHECKED[i].suspect, *fallback = CHECKED[i].fallback;
        if (fmtcanon_fmtcheck(suspect, fallback) != (CHECKED[i].is_used ? suspect : fallback)) failed(fallback, __LINE__);
    }
}

static void in_small_stack(void)
{
    fmtcanon_fits_fewer(LP64, "%d%s%f%p", 8, "%*d%s", 5, NULL);
}

int main(void)
{
    pairs();
    errors();
    checked();
    WANT(on_small_stack(in_small_stack, 20 * 1024));
    puts("formats from outside are as the header says");
    return 0;
}
