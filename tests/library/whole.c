/* The calls about formats of the whole language: what they answer, where and why a format is refused, and that they leave alone
 * what they don't write. Expected answers are worked out by hand. */
#define _GNU_SOURCE
#include "fmtcanon.h"
#include "small_stack.h"
#include <stdio.h>
#include <stdlib.h>
#include <string.h>
#include <sys/mman.h>

#define WANT(holds) ((holds) ? (void)0 : failed(#holds, __LINE__))
#define COUNT(rows) (sizeof(rows) / sizeof *(rows))

enum { LP64 = FMTCANON_LP64, ILP32 = FMTCANON_ILP32, LLP64 = FMTCANON_LLP64, PAGE = 4096 };

static void failed(const char *what, int line)
{
    fprintf(stderr, "whole.c:%d: not so: %s\n", line, what);
    exit(1);
}

/* The last `len` bytes before a page that can't be touched. */
static char *at_end(size_t len)
{
    static char *end;
    if (end == NULL) {
        char *p = mmap(NULL, 2 * PAGE, PROT_READ | PROT_WRITE, MAP_PRIVATE | MAP_ANONYMOUS, -1, 0);
        WANT(p != MAP_FAILED && !mprotect(p + PAGE, PAGE, PROT_NONE));
        end = p + PAGE;
    }
    return end - len;
}

/* Formats, and their canonical texts in a data model. */
static const struct {
    int model;
    const char *text, *canonical;
} CANONICAL[] = {
    {LP64, "", ""},
    {LP64, "%i%%", "%d%%"},
    {LP64, "%i: %-08.6lf (%5c)", "%d: %-8f (    %c)"},
    {LP64, "%.0s%5d%.0s%p%.0s", "%.0s%5d%.0s%p%.0s"},
    {LP64, "%-*.3i%0*.3d%+*u%C", "%-*.3d%*.3d%*u%lc"},
    {LP64, "%+ f%.0g%.06E%-f%+ p%'.f", "%+f%.1g%E%f%+p%.0f"},
    {LP64, "%jn%zn%tn%zd", "%ln%ln%ln%ld"},
    {ILP32, "%jn%zn%tn%zd", "%lln%n%n%d"},
    {LLP64, "%jn%zn%tn%zd", "%lln%lln%lln%lld"},
};

static void canonical_texts(void)
{
    size_t i, cap;
    for (i = 0; i < COUNT(CANONICAL); i++) {
        const char *canonical = CANONICAL[i].canonical;
        size_t len = strlen(CANONICAL[i].text), n = strlen(canonical);
        int model = CANONICAL[i].model;
        fmtcanon_error e = {77, 78, 79};
        char text[64];
        memcpy(text, CANONICAL[i].text, len);
        WANT(fmtcanon_whole_canonical_length(model, text, len, &e) == (int64_t)n);
        for (cap = 0; cap < n + 4; cap++) {
            char *out = at_end(cap);
            memset(out, 'Z', cap);
            WANT(fmtcanon_whole_canonical(model, text, len, out, cap, &e) == (int64_t)n);
            WANT(cap <= n ? cap == 0 || out[0] == 'Z' : !strcmp(out, canonical));
            WANT(cap < n + 2 || out[n + 1] == 'Z');
        }
        WANT(e.at == 77 && e.kind == 78 && e.side == 79);
        WANT(fmtcanon_whole_same(model, text, len, canonical, n, &e) == 1);
    }
}

/* Refused formats, why, and where. */
static const struct {
    const char *text;
    size_t len;
    int kind;
    uint64_t at;
} REFUSED[] = {
    {"%1$d", 4, FMTCANON_NUMBERED, 2},
    {"%f%2$*1$d", 9, FMTCANON_NUMBERED, 4},
    {"%*1$d", 5, FMTCANON_MIXED, 2},
    {"%y", 2, FMTCANON_UNEXPECTED, 1},
    {"%-*.3i%0*.3d%+*u%lC", 19, FMTCANON_LENGTH_UNDEFINED, 18},
    {"%f%5n", 5, FMTCANON_COUNT_UNDEFINED, 4},
    {"%.*", 3, FMTCANON_TRUNCATED, 3},
    {"%f\0", 3, FMTCANON_NUL_BYTE, 2},
    {"%0p", 3, FMTCANON_ZERO_UNDEFINED, 2},
    {"%4096f", 6, FMTCANON_WIDTH_TOO_LARGE, 4},
};

static void refusals(void)
{
    size_t i;
    for (i = 0; i < COUNT(REFUSED); i++) {
        const char *t = REFUSED[i].text;
        size_t n = REFUSED[i].len;
        int64_t code = -REFUSED[i].kind;
        uint64_t at = REFUSED[i].at;
        fmtcanon_error e;
        fmtcanon_comparison c = {77, 78, 79};
        char out[8] = "ZZZZZZZ";
        WANT(fmtcanon_whole_canonical(LP64, t, n, out, 8, &e) == code && e.at == at && e.kind == (uint32_t)-code && e.side == 0);
        WANT(fmtcanon_whole_canonical_length(LP64, t, n, &e) == code && e.at == at && e.kind == (uint32_t)-code && e.side == 0);
        WANT(fmtcanon_whole_same(LP64, "%f", 2, t, n, &e) == code && e.at == at && e.kind == (uint32_t)-code && e.side == 1);
        WANT(fmtcanon_whole_same(LP64, t, n, "%y", 2, &e) == code && e.at == at && e.kind == (uint32_t)-code && e.side == 0);
        WANT(fmtcanon_whole_same_models("%f", 2, t, n, &e) == code && e.at == at && e.kind == (uint32_t)-code && e.side == 1);
        WANT(fmtcanon_whole_same_models(t, n, "%y", 2, &e) == code && e.at == at && e.kind == (uint32_t)-code && e.side == 0);
        WANT(fmtcanon_whole_compare(LP64, "%f", 2, t, n, out, 8, &c, &e) == code && e.at == at && e.side == 1);
        WANT(fmtcanon_whole_compare(LP64, t, n, "%y", 2, out, 8, &c, &e) == code && e.at == at && e.side == 0);
        WANT(!strcmp(out, "ZZZZZZZ") && c.number == 77 && c.verdict == 78 && c.renderings == 79);
        WANT(fmtcanon_whole_canonical(LP64, t, n, out, 8, NULL) == code && fmtcanon_whole_canonical_length(LP64, t, n, NULL) == code);
        WANT(fmtcanon_whole_same(LP64, t, n, t, n, NULL) == code && fmtcanon_whole_same_models(t, n, t, n, NULL) == code);
        WANT(fmtcanon_whole_compare(LP64, t, n, t, n, out, 8, &c, NULL) == code);
    }
}

/* Two formats, the data models in which they are alike, and how they compare in LP64 with the words that are given. */
static const struct {
    const char *first, *second;
    int models;
    uint32_t verdict;
    uint64_t number;
    const char *words;
    size_t size;
} COMPARED[] = {
    {"%.6f%%%i", "%f%%%d", FMTCANON_IN_ALL, FMTCANON_SAME, 0, "", 0},
    {"%i", "%d", FMTCANON_IN_ALL, FMTCANON_SAME, 0, "", 0},
    {"%f%05d%p", "%f%.5d%p", 0, FMTCANON_DIFFERENT, 3, "any\0n:-1\0any\0", 13},
    {"%5.0s%f", "%.0s%f", 0, FMTCANON_DIFFERENT, 2, "s:\0any\0", 7},
    {"%fa", "%fb", 0, FMTCANON_DIFFERENT, 1, "any\0", 4},
    {"a", "b", 0, FMTCANON_DIFFERENT, 0, "", 0},
    {"%05d%s", "%.5d%s", 0, FMTCANON_DIFFERENT, 2, "n:-1\0s:\0", 8},
    {"%*d", "%d%d", 0, FMTCANON_DIRECTIVES, 0, "", 0},
    {"%d%f", "%d%e", 0, FMTCANON_DIRECTIVES, 1, "", 0},
    {"%1f", "%f", 0, FMTCANON_DIRECTIVES, 0, "", 0},
    {"%f%d", "%f%s", 0, FMTCANON_TYPES, 1, "", 0},
    {"%f", "%f%f", 0, FMTCANON_TYPES, 1, "", 0},
    {"%zn", "%ln", FMTCANON_IN_LP64, FMTCANON_SAME, 0, "", 0},
    {"%jn%f", "%lln%f", FMTCANON_IN_ILP32 + FMTCANON_IN_LLP64, FMTCANON_TYPES, 0, "", 0},
};

static void comparisons(void)
{
    size_t i, cap;
    for (i = 0; i < COUNT(COMPARED); i++) {
        const char *f = COMPARED[i].first, *g = COMPARED[i].second;
        size_t n = strlen(f), m = strlen(g), size = COMPARED[i].size;
        fmtcanon_error e = {77, 78, 79};
        WANT(fmtcanon_whole_same_models(f, n, g, m, &e) == COMPARED[i].models);
        WANT(fmtcanon_whole_same(LP64, f, n, g, m, &e) == (COMPARED[i].models & 1));
        WANT(fmtcanon_whole_same(ILP32, f, n, g, m, &e) == (COMPARED[i].models >> 1 & 1));
        WANT(fmtcanon_whole_same(LLP64, f, n, g, m, &e) == (COMPARED[i].models >> 2 & 1));
        for (cap = 0; cap < size + 3; cap++) {
            fmtcanon_comparison c = {77, 78, 79};
            char *out = at_end(cap);
            memset(out, 'Z', cap);
            WANT(fmtcanon_whole_compare(LP64, f, n, g, m, out, cap, &c, &e) == (int64_t)size);
            WANT(c.verdict == COMPARED[i].verdict && c.number == COMPARED[i].number && c.renderings == 0);
            WANT(cap < size ? cap == 0 || out[0] == 'Z' : !memcmp(out, COMPARED[i].words, size) && (cap == size || out[size] == 'Z'));
        }
        WANT(e.at == 77 && e.kind == 78 && e.side == 79);
    }
}

static void models(void)
{
    static const int none[] = {-1, 3, 0x7fffffff, -0x7fffffff - 1};
    fmtcanon_error e = {77, 78, 79};
    fmtcanon_comparison c = {77, 78, 79};
    char out[8] = "ZZZZZZZ";
    size_t i;
    for (i = 0; i < COUNT(none); i++) {
        WANT(fmtcanon_whole_canonical(none[i], "%f", 2, out, 8, &e) == FMTCANON_ERROR_MODEL);
        WANT(fmtcanon_whole_canonical_length(none[i], "%y", 2, &e) == FMTCANON_ERROR_MODEL);
        WANT(fmtcanon_whole_same(none[i], "%f", 2, "%f", 2, &e) == FMTCANON_ERROR_MODEL);
        WANT(fmtcanon_whole_compare(none[i], "a", 1, "b", 1, out, 8, &c, &e) == FMTCANON_ERROR_MODEL);
    }
    WANT(!strcmp(out, "ZZZZZZZ") && e.at == 77 && e.kind == 78 && e.side == 79);
    WANT(c.number == 77 && c.verdict == 78 && c.renderings == 79);
    WANT(fmtcanon_whole_same_models(NULL, 0, NULL, 0, NULL) == FMTCANON_IN_ALL && fmtcanon_whole_same(LP64, NULL, 0, "", 0, NULL) == 1);
    WANT(fmtcanon_whole_canonical(LP64, NULL, 0, NULL, 0, NULL) == 0 && fmtcanon_whole_canonical_length(LP64, NULL, 0, NULL) == 0);
    WANT(fmtcanon_whole_compare(LP64, NULL, 0, NULL, 0, NULL, 0, &c, NULL) == 0 && c.verdict == FMTCANON_SAME && c.number == 0);
}

static void in_small_stack(void)
{
    static char out[8192];
    fmtcanon_comparison c;
    fmtcanon_whole_canonical(LP64, "%4095d%*.4095s%#o%zd%f", 22, out, sizeof out, NULL);
    fmtcanon_whole_compare(LP64, "%f%4095d%s", 10, "%f%4095d%.4095s", 15, out, sizeof out, &c, NULL);
}

int main(void)
{
    canonical_texts();
    refusals();
    comparisons();
    models();
    WANT(on_small_stack(in_small_stack, 20 * 1024));
    puts("the whole language is as the header says");
    return 0;
}
