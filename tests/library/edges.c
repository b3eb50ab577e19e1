/* The edges of what the header says: its numbers and its layout, texts and buffers that end at a
 * page that can't be touched, NULL, each growth refused in turn, what is given back of memory, and a
 * small stack. It is linked with malloc, realloc and free wrapped. */
#define _GNU_SOURCE
#include "fmtcanon.h"
#include "small_stack.h"
#include <stdio.h>
#include <stdlib.h>
#include <string.h>
#include <sys/mman.h>

/* Whatever was called, nothing is held of memory. */
#define WANT(holds) ((holds) && held == 0 ? (void)0 : failed(#holds, __LINE__))
#define COUNT(rows) (sizeof(rows) / sizeof *(rows))

enum { LP64 = FMTCANON_LP64, ILP32 = FMTCANON_ILP32, LLP64 = FMTCANON_LLP64 };

static void failed(const char *what, int line)
{
    fprintf(stderr, "edges.c:%d: not so: %s\n", line, what);
    exit(1);
}

/* How often memory was asked for, and how many pieces of it are held. */
static int fails_at = -1, growths, held;
void *__real_malloc(size_t n);
void *__real_realloc(void *p, size_t n);
void __real_free(void *p);

void *__wrap_malloc(size_t n)
{
    void *p = growths++ == fails_at ? NULL : __real_malloc(n);
    held += p != NULL;
    return p;
}

void *__wrap_realloc(void *p, size_t n)
{
    void *q = growths++ == fails_at ? NULL : __real_realloc(p, n);
    held += p == NULL && q != NULL;
    return q;
}

void __wrap_free(void *p)
{
    held -= p != NULL;
    __real_free(p);
}

static void layout(void)
{
    WANT(sizeof(fmtcanon_error) == 16);
    WANT(offsetof(fmtcanon_error, at) == 0 && offsetof(fmtcanon_error, kind) == 8);
    WANT(offsetof(fmtcanon_error, side) == 12);
    WANT(sizeof(fmtcanon_comparison) == 16);
    WANT(offsetof(fmtcanon_comparison, number) == 0);
    WANT(offsetof(fmtcanon_comparison, verdict) == 8);
    WANT(offsetof(fmtcanon_comparison, renderings) == 12);
    WANT(sizeof(fmtcanon_directive) == 48);
    WANT(offsetof(fmtcanon_directive, begin) == 0 && offsetof(fmtcanon_directive, end) == 8);
    WANT(offsetof(fmtcanon_directive, argument) == 16 && offsetof(fmtcanon_directive, width_argument) == 24);
    WANT(offsetof(fmtcanon_directive, precision_argument) == 32 && offsetof(fmtcanon_directive, kind) == 40);
    WANT(FMTCANON_ERROR_NOMEMORY == -100 && FMTCANON_ERROR_MODEL == -101 && FMTCANON_ERROR_NOPLACE == -102);
}

/* Each kind but the last with a text that is refused for it. */
static const struct {
    int kind;
    const char *name, *text;
    size_t len;
} KINDS[] = {
    {FMTCANON_NUL_BYTE, "NulByte", "a\0b", 3},
    {FMTCANON_TRUNCATED, "Truncated", "%", 1},
    {FMTCANON_UNEXPECTED, "Unexpected", "%y", 2},
    {FMTCANON_BAD_PERCENT, "BadPercent", "%5%", 3},
    {FMTCANON_STAR, "Star", "%*d", 3},
    {FMTCANON_NUMBERED, "Numbered", "%1$d", 4},
    {FMTCANON_WIDTH_TOO_LARGE, "WidthTooLarge", "%4096d", 6},
    {FMTCANON_PRECISION_TOO_LARGE, "PrecisionTooLarge", "%.4096d", 7},
    {FMTCANON_FLOAT, "Float", "%f", 2},
    {FMTCANON_POINTER, "Pointer", "%p", 2},
    {FMTCANON_COUNT, "Count", "%n", 2},
    {FMTCANON_WIDE, "Wide", "%ls", 3},
    {FMTCANON_ALT_UNDEFINED, "AltUndefined", "%#d", 3},
    {FMTCANON_ZERO_UNDEFINED, "ZeroUndefined", "%0s", 3},
    {FMTCANON_GROUP_UNDEFINED, "GroupUndefined", "%'x", 3},
    {FMTCANON_PRECISION_UNDEFINED, "PrecisionUndefined", "%.3c", 4},
    {FMTCANON_LENGTH_UNDEFINED, "LengthUndefined", "%hs", 3},
};

static void numbers(void)
{
    static const unsigned char types[] = {FMTCANON_INT,       FMTCANON_UINT,
                                          FMTCANON_LONG,      FMTCANON_ULONG,
                                          FMTCANON_LONG_LONG, FMTCANON_ULONG_LONG,
                                          FMTCANON_STRING};
    fmtcanon_error e;
    unsigned char found[8];
    char name[32];
    size_t i;
    for (i = 0; i < COUNT(KINDS); i++) {
        WANT(fmtcanon_check(KINDS[i].text, KINDS[i].len, &e) == -KINDS[i].kind);
        WANT(e.kind == (uint32_t)KINDS[i].kind && e.kind == i + 1 && e.side == 0);
        WANT(fmtcanon_kind_name(e.kind, name, sizeof name) == strlen(KINDS[i].name));
        WANT(!strcmp(name, KINDS[i].name) && strlen(name) <= 18);
    }
    WANT(fmtcanon_kind_name(FMTCANON_TOO_LONG, name, sizeof name) && !strcmp(name, "TooLong"));
    WANT(fmtcanon_kind_name(0, name, 1) == 0 && fmtcanon_kind_name(23, NULL, 0) == 0);
    WANT(fmtcanon_kind_name(0xffffffff, NULL, 0) == 0);
    WANT(fmtcanon_types(LP64, "%d%u%ld%lu%lld%llu%s", 20, found, sizeof found, &e) == 7);
    WANT(!memcmp(found, types, sizeof types));
    WANT(fmtcanon_version() == (FMTCANON_VERSION_MAJOR << 16 | FMTCANON_VERSION_MINOR << 8
                                | FMTCANON_VERSION_PATCH));
}

static void models(void)
{
    static const int none[] = {-1, 3, 4, 32, 64, 0x7fffffff, -0x7fffffff - 1};
    fmtcanon_error e = {77, 78, 79};
    fmtcanon_comparison found = {77, 78, 79};
    char out[8] = "ZZZZZZZ";
    unsigned char *bytes = (unsigned char *)out;
    size_t i;
    for (i = 0; i < COUNT(none); i++) {
        WANT(fmtcanon_is_canonical(none[i], "%y", 2, &e) == FMTCANON_ERROR_MODEL);
        WANT(fmtcanon_canonical_length(none[i], "%d", 2, &e) == FMTCANON_ERROR_MODEL);
        WANT(fmtcanon_canonical(none[i], "%d", 2, out, 8, &e) == FMTCANON_ERROR_MODEL);
        WANT(fmtcanon_types(none[i], "%d", 2, bytes, 8, &e) == FMTCANON_ERROR_MODEL);
        WANT(fmtcanon_same(none[i], "%d", 2, "%d", 2, &e) == FMTCANON_ERROR_MODEL);
        WANT(fmtcanon_compare(none[i], "a", 1, "b", 1, out, 8, &found, &e) == FMTCANON_ERROR_MODEL);
    }
    WANT(!strcmp(out, "ZZZZZZZ") && e.at == 77 && e.kind == 78 && e.side == 79);
    WANT(found.number == 77 && found.verdict == 78 && found.renderings == 79);
    WANT(fmtcanon_canonical(ILP32, "%ju", 3, out, 8, &e) == 4 && !strcmp(out, "%llu"));
    WANT(fmtcanon_canonical(LLP64, "%zx", 3, out, 8, &e) == 4 && !strcmp(out, "%llx"));
    WANT(fmtcanon_types(ILP32, "%zu%jd%ld", 9, bytes, 8, &e) == 3);
    WANT(bytes[0] == FMTCANON_UINT && bytes[1] == FMTCANON_LONG_LONG && bytes[2] == FMTCANON_LONG);
    WANT(fmtcanon_same_models("%d", 2, "%ld", 3, &e) == FMTCANON_IN_NEITHER);
    WANT(fmtcanon_same_models("%td", 3, "%jd", 3, &e) == FMTCANON_IN_LP64 + FMTCANON_IN_LLP64);
    WANT(fmtcanon_same_models("%td", 3, "%ld", 3, &e) == FMTCANON_IN_LP64);
    WANT(fmtcanon_same_models("%zu", 3, "%llu", 4, &e) == FMTCANON_IN_LLP64);
    WANT(fmtcanon_same_models("%zd", 3, "%d", 2, &e) == FMTCANON_IN_ILP32);
    WANT(fmtcanon_same_models("%jd", 3, "%lld", 4, &e) == FMTCANON_IN_ILP32 + FMTCANON_IN_LLP64);
    WANT(fmtcanon_same_models("%i", 2, "%d", 2, &e) == FMTCANON_IN_ALL);
    WANT(fmtcanon_same_models(NULL, 0, NULL, 0, &e) == FMTCANON_IN_ALL && e.at == 77);
    WANT(fmtcanon_same_models("%d", 2, "%y", 2, &e) == -FMTCANON_UNEXPECTED && e.side == 1);
    WANT(fmtcanon_same_models("%*d", 3, "%y", 2, &e) == -FMTCANON_STAR && e.side == 0);
}

static void two_texts(void)
{
    fmtcanon_error e;
    fmtcanon_comparison found;
    char out[32];
    WANT(fmtcanon_same(LP64, "%d", 2, "%y", 2, &e) == -FMTCANON_UNEXPECTED);
    WANT(e.side == 1 && e.at == 1);
    WANT(fmtcanon_same(LP64, "%*d", 3, "%y", 2, &e) == -FMTCANON_STAR && e.side == 0);
    WANT(fmtcanon_compare(LP64, "%i", 2, "%d", 2, out, sizeof out, &found, &e) == 0);
    WANT(found.verdict == FMTCANON_SAME && found.number == 0 && found.renderings == 0);
    WANT(fmtcanon_compare(LP64, "%d%s", 4, "%d", 2, out, sizeof out, &found, &e) == 0);
    WANT(found.verdict == FMTCANON_TYPES && found.number == 1 && found.renderings == 0);
    WANT(fmtcanon_compare(LP64, "a", 1, "b", 1, NULL, 0, &found, &e) == 0);
    WANT(found.verdict == FMTCANON_DIFFERENT && found.number == 0 && found.renderings == 1);
    WANT(fmtcanon_compare(LP64, "%05d%s", 6, "%.5d%s", 6, out, sizeof out, &found, &e) == 8);
    WANT(found.verdict == FMTCANON_DIFFERENT && found.number == 2);
    WANT(!memcmp(out, "n:-1\0s:\0", 8));
}

/* The kinds that the whole language alone has, with a text for each, and where. */
static const struct {
    int kind;
    const char *name, *text;
    uint64_t at;
} WHOLE[] = {
    {FMTCANON_COUNT_UNDEFINED, "CountUndefined", "%5n", 2},
    {FMTCANON_MIXED, "Mixed", "%d%1$d", 4},
    {FMTCANON_MISSING_ARGUMENT, "MissingArgument", "%2$d", 4},
    {FMTCANON_TWO_TYPES, "TwoTypes", "%1$d%1$s", 7},
};

static void whole_language(void)
{
    static const unsigned char types[] = {
        FMTCANON_INT, FMTCANON_DOUBLE, FMTCANON_LONG_DOUBLE, FMTCANON_WIDE_CHAR, FMTCANON_WIDE_STRING,
        FMTCANON_POINTER_TO_VOID, FMTCANON_POINTER_TO_SCHAR, FMTCANON_POINTER_TO_SHORT,
        FMTCANON_POINTER_TO_INT, FMTCANON_POINTER_TO_LONG, FMTCANON_POINTER_TO_LONG_LONG};
    static const char all[] = "%*f%Lf%lc%ls%p%hhn%hn%n%ln%lln";
    fmtcanon_error e = {77, 78, 79};
    unsigned char out[16];
    char name[32];
    size_t i;
    memset(out, 'Z', sizeof out);
    WANT(fmtcanon_arguments(LP64, all, strlen(all), out, 10, &e) == 11 && out[0] == 'Z');
    WANT(fmtcanon_arguments(LP64, all, strlen(all), out, 11, &e) == 11 && out[11] == 'Z');
    WANT(!memcmp(out, types, sizeof types));
    WANT(fmtcanon_arguments(LP64, NULL, 0, NULL, 0, &e) == 0);
    WANT(fmtcanon_arguments(LLP64, "%zn", 3, out, 16, &e) == 1 && out[0] == FMTCANON_POINTER_TO_LONG_LONG);
    WANT(fmtcanon_fits(LP64, "%s of %d", 8, "%2$d/%1$s", 9, &e) == 1);
    WANT(fmtcanon_fits(LP64, "%.2f of %s", 10, "%.2f von %d", 11, &e) == 0);
    WANT(fmtcanon_fits(LP64, NULL, 0, NULL, 0, &e) == 1);
    WANT(fmtcanon_fits(LP64, "%zu", 3, "%lu", 3, &e) == 1 && fmtcanon_fits(ILP32, "%zu", 3, "%lu", 3, &e) == 0);
    WANT(e.at == 77 && e.kind == 78 && e.side == 79);
    WANT(fmtcanon_fits(3, "%d", 2, "%d", 2, &e) == FMTCANON_ERROR_MODEL);
    WANT(fmtcanon_arguments(-1, "%d", 2, out, 16, &e) == FMTCANON_ERROR_MODEL && e.at == 77);
    for (i = 0; i < COUNT(WHOLE); i++) {
        size_t len = strlen(WHOLE[i].text);
        fmtcanon_error f = {77, 78, 79};
        WANT(WHOLE[i].kind == (int)i + 19);
        WANT(fmtcanon_arguments(LP64, WHOLE[i].text, len, out, 16, &f) == -WHOLE[i].kind);
        WANT(f.at == WHOLE[i].at && f.kind == (uint32_t)WHOLE[i].kind && f.side == 0);
        WANT(fmtcanon_fits(LP64, WHOLE[i].text, len, "%y", 2, &f) == -WHOLE[i].kind && f.side == 0);
        WANT(fmtcanon_fits(LP64, "%d", 2, WHOLE[i].text, len, &f) == -WHOLE[i].kind && f.side == 1);
        WANT(fmtcanon_fits(LP64, "%d", 2, WHOLE[i].text, len, NULL) == -WHOLE[i].kind);
        WANT(fmtcanon_arguments(LP64, WHOLE[i].text, len, out, 16, NULL) == -WHOLE[i].kind);
        WANT(fmtcanon_kind_name(f.kind, name, sizeof name) == strlen(WHOLE[i].name));
        WANT(!strcmp(name, WHOLE[i].name));
    }
}

static int is_record(const fmtcanon_directive *d, uint64_t begin, uint64_t end, uint64_t argument, uint64_t width,
                     uint64_t precision, uint64_t kind)
{
    return d->begin == begin && d->end == end && d->argument == argument && d->width_argument == width
           && d->precision_argument == precision && d->kind == kind;
}

static void directives(void)
{
    static const char order[] = "a%5.*lu%%%c", numbered[] = "%2$*1$d", both[] = "%*.*f%s";
    const uint64_t none = FMTCANON_NO_ARGUMENT;
    fmtcanon_directive out[4], before[4];
    fmtcanon_error e = {77, 78, 79};
    size_t i;
    memset(out, 'Z', sizeof out);
    memset(before, 'Z', sizeof before);
    WANT(fmtcanon_directives(LP64, order, strlen(order), NULL, 0, &e) == 2);
    WANT(fmtcanon_directives(LP64, order, strlen(order), out, 1, &e) == 2 && !memcmp(out, before, sizeof out));
    WANT(fmtcanon_directives(LP64, order, strlen(order), out, 2, &e) == 2);
    WANT(is_record(out, 1, 7, 1, none, 0, FMTCANON_ULONG) && is_record(out + 1, 9, 11, 2, none, none, FMTCANON_INT));
    WANT(!memcmp(out + 2, before, 2 * sizeof *out));
    WANT(fmtcanon_directives(LLP64, "%zx", 3, out, 4, &e) == 1 && out[0].kind == FMTCANON_ULONG_LONG);
    WANT(fmtcanon_directives(LP64, numbered, strlen(numbered), out, 4, &e) == 1);
    WANT(is_record(out, 0, 7, 1, 0, none, FMTCANON_INT));
    WANT(fmtcanon_directives(LP64, both, strlen(both), out, 4, &e) == 2);
    WANT(is_record(out, 0, 5, 2, 0, 1, FMTCANON_DOUBLE) && is_record(out + 1, 5, 7, 3, none, none, FMTCANON_STRING));
    WANT(fmtcanon_directives(LP64, NULL, 0, NULL, 0, &e) == 0 && fmtcanon_directives(LP64, "%%", 2, out, 4, &e) == 0);
    WANT(fmtcanon_fits_models("%zu", 3, "%lu", 3, &e) == FMTCANON_IN_LP64);
    WANT(fmtcanon_fits_models("%s of %d", 8, "%2$d/%1$s", 9, &e) == FMTCANON_IN_ALL);
    WANT(fmtcanon_fits_models("%d", 2, "%s", 2, &e) == FMTCANON_IN_NEITHER);
    memcpy(before, out, sizeof out);
    WANT(fmtcanon_directives(3, "%d", 2, out, 4, &e) == FMTCANON_ERROR_MODEL && e.at == 77 && e.side == 79);
    for (i = 0; i < COUNT(WHOLE); i++) {
        size_t len = strlen(WHOLE[i].text);
        WANT(fmtcanon_directives(LP64, WHOLE[i].text, len, out, 4, &e) == -WHOLE[i].kind);
        WANT(e.at == WHOLE[i].at && e.kind == (uint32_t)WHOLE[i].kind && e.side == 0);
        WANT(fmtcanon_directives(LP64, WHOLE[i].text, len, out, 4, NULL) == -WHOLE[i].kind);
        WANT(fmtcanon_fits_models("%d", 2, WHOLE[i].text, len, NULL) == -WHOLE[i].kind);
    }
    WANT(!memcmp(out, before, sizeof out));
    /* Two types in ILP32 alone: it is refused there, though LP64 has taken both. */
    WANT(fmtcanon_fits_models("%lu", 3, "%1$zu %1$lu", 11, &e) == -FMTCANON_TWO_TYPES && e.at == 10 && e.side == 1);
    WANT(fmtcanon_fits(LP64, "%lu", 3, "%1$zu %1$lu", 11, &e) == 1);
}

/* Each fault of string literals, with a text that has it, and where. */
static const struct {
    int kind;
    const char *name, *text;
    size_t len;
    uint64_t at;
} FAULTS[] = {
    {FMTCANON_NO_LITERAL, "NoLiteral", "L\"%d\"", 5, 0},
    {FMTCANON_UNTERMINATED, "Unterminated", "\"%d", 3, 3},
    {FMTCANON_BAD_ESCAPE, "BadEscape", "\"a\\q\"", 5, 2},
    {FMTCANON_ESCAPE_TOO_LARGE, "EscapeTooLarge", "\"\\x25d\"", 7, 1},
    {FMTCANON_ZERO_BYTE, "ZeroByte", "\"a\\0b\"", 6, 2},
    {FMTCANON_TRIGRAPH, "Trigraph", "\"a?" "?/n\"", 7, 2},
};

static void literals(void)
{
    static const char source[] = " \"Total:\\t%i\" \"\\x9\" \"1\" ";
    static const char text[] = "Total:\t%i\t1";
    fmtcanon_error e = {77, 78, 79};
    char out[64], name[32];
    size_t i, len = strlen(text);
    memset(out, 'Z', sizeof out);
    WANT(fmtcanon_decode_literal(source, sizeof source - 1, out, len, &e) == (int64_t)len && out[0] == 'Z');
    WANT(fmtcanon_decode_literal(source, sizeof source - 1, out, len + 1, &e) == (int64_t)len);
    WANT(!strcmp(out, text) && out[len + 1] == 'Z');
    WANT(e.at == 77 && e.kind == 78 && e.side == 79);
    WANT(fmtcanon_encode_literal(text, len, NULL, 0) == 15);
    memset(out, 'Z', sizeof out);
    WANT(fmtcanon_encode_literal(text, len, out, 15) == 15 && out[0] == 'Z');
    WANT(fmtcanon_encode_literal(text, len, out, 16) == 15 && out[16] == 'Z');
    WANT(!strcmp(out, "\"Total:\\t%i\\t1\""));
    WANT(fmtcanon_encode_literal("\1?" "?=\377\0", 6, out, sizeof out) == 15);
    WANT(!strcmp(out, "\"\\001?\\?=\377\\000\""));
    WANT(fmtcanon_encode_literal(NULL, 0, out, sizeof out) == 2 && !strcmp(out, "\"\""));
    WANT(fmtcanon_decode_literal("\"\"", 2, out, 1, &e) == 0 && out[0] == 0);
    /* The places of `T`, of the tab, of the second tab, of the `1`, and of the last quote. */
    WANT(fmtcanon_source_offset(source, sizeof source - 1, 0) == 2);
    WANT(fmtcanon_source_offset(source, sizeof source - 1, 6) == 8);
    WANT(fmtcanon_source_offset(source, sizeof source - 1, 9) == 15);
    WANT(fmtcanon_source_offset(source, sizeof source - 1, 10) == 21);
    WANT(fmtcanon_source_offset(source, sizeof source - 1, 11) == 22);
    WANT(fmtcanon_source_offset(source, sizeof source - 1, 12) == FMTCANON_ERROR_NOPLACE);
    WANT(fmtcanon_source_offset(source, sizeof source - 1, (uint64_t)-1) == FMTCANON_ERROR_NOPLACE);
    WANT(fmtcanon_source_offset("x", 1, 0) == FMTCANON_ERROR_NOPLACE);
    WANT(fmtcanon_source_offset(NULL, 0, 0) == FMTCANON_ERROR_NOPLACE);
    WANT(fmtcanon_decode_literal(NULL, 0, NULL, 0, &e) == -FMTCANON_NO_LITERAL && e.at == 0);
    for (i = 0; i < COUNT(FAULTS); i++) {
        fmtcanon_error f = {77, 78, 79};
        out[0] = 'Z';
        WANT(FAULTS[i].kind == (int)i + 201);
        WANT(fmtcanon_decode_literal(FAULTS[i].text, FAULTS[i].len, out, sizeof out, &f) == -FAULTS[i].kind);
        WANT(f.at == FAULTS[i].at && f.kind == (uint32_t)FAULTS[i].kind && f.side == 0 && out[0] == 'Z');
        WANT(fmtcanon_decode_literal(FAULTS[i].text, FAULTS[i].len, out, 0, NULL) == -FAULTS[i].kind);
        WANT(fmtcanon_kind_name(f.kind, name, sizeof name) == strlen(FAULTS[i].name));
        WANT(!strcmp(name, FAULTS[i].name));
    }
    WANT(fmtcanon_kind_name(200, NULL, 0) == 0 && fmtcanon_kind_name(207, NULL, 0) == 0);
}

/* So many bytes just before a page that can't be touched. */
static char *at_end(size_t len)
{
    char *p = mmap(NULL, 8192, PROT_READ | PROT_WRITE, MAP_PRIVATE | MAP_ANONYMOUS, -1, 0);
    WANT(p != MAP_FAILED && !mprotect(p + 4096, 4096, PROT_NONE));
    return p + 4096 - len;
}

/* Texts that end at a page that can't be touched, and rooms that do. */
static void literal_pages(void)
{
    static const char *const sources[] = {
        "\"\"", "\"abc\\n%d and a run that is longer than sixteen bytes\"", "\"\\", "\"\\x", "\"?\?", "\"", " ", "\"\\101\" \"\\7",
    };
    fmtcanon_error e;
    size_t i, cap;
    for (i = 0; i < COUNT(sources); i++) {
        size_t len = strlen(sources[i]);
        char *text = at_end(len);
        int64_t n, m;
        memcpy(text, sources[i], len);
        fmtcanon_source_offset(text, len, 3);
        n = fmtcanon_decode_literal(text, len, NULL, 0, &e);
        m = fmtcanon_encode_literal(text, len, NULL, 0);
        for (cap = 0; n >= 0 && cap < (size_t)n + 3; cap++)
            WANT(fmtcanon_decode_literal(text, len, at_end(cap), cap, &e) == n);
        for (cap = 0; cap < (size_t)m + 3; cap++)
            WANT(fmtcanon_encode_literal(text, len, at_end(cap), cap) == m);
    }
}

static void pages(void)
{
    static const char *const formats[] = {
        "%5d",   "abcdefghijklmnopqrstuvwxyz%s", "no percent, and longer than 32 bytes, plain text",
        "%",     "%%",                           "%05u|%-20d|%#o",
        "%.0sx", "",                             "%'5",
    };
    fmtcanon_error e;
    fmtcanon_comparison found;
    size_t i, cap;
    for (i = 0; i < COUNT(formats); i++) {
        size_t len = strlen(formats[i]);
        char *text = at_end(len);
        int64_t n, m, w;
        memcpy(text, formats[i], len);
        n = fmtcanon_canonical_length(LP64, text, len, &e);
        WANT(fmtcanon_canonical(LP64, text, len, NULL, 0, &e) == n);
        WANT(fmtcanon_same(LP64, text, len, text, len, &e) == (n < 0 ? n : 1));
        if (n < 0) continue;
        for (cap = 0; cap < (size_t)n + 3; cap++)
            WANT(fmtcanon_canonical(LP64, text, len, at_end(cap), cap, &e) == n);
        m = fmtcanon_types(LP64, text, len, NULL, 0, &e);
        for (cap = 0; cap < (size_t)m + 3; cap++)
            WANT(fmtcanon_types(LP64, text, len, (unsigned char *)at_end(cap), cap, &e) == m);
        m = fmtcanon_directives(LP64, text, len, NULL, 0, &e);
        for (cap = 0; cap < (size_t)m + 3; cap++)
            WANT(fmtcanon_directives(LP64, text, len, (void *)at_end(cap * sizeof(fmtcanon_directive)), cap, &e) == m);
        w = fmtcanon_compare(LP64, text, len, "%.1d", 4, NULL, 0, &found, &e);
        for (cap = 0; cap < (size_t)w + 3; cap++)
            WANT(fmtcanon_compare(LP64, text, len, "%.1d", 4, at_end(cap), cap, &found, &e) == w);
    }
}

static void nothing(void)
{
    fmtcanon_error e;
    fmtcanon_comparison found;
    char one[1] = {'Z'};
    char small[8];
    WANT(fmtcanon_check(NULL, 0, &e) == 0 && fmtcanon_is_canonical(LP64, NULL, 0, &e) == 1);
    WANT(fmtcanon_canonical_length(LP64, NULL, 0, &e) == 0);
    WANT(fmtcanon_canonical(LP64, NULL, 0, NULL, 0, &e) == 0);
    WANT(fmtcanon_canonical(LP64, NULL, 0, one, 1, &e) == 0 && one[0] == 0);
    WANT(fmtcanon_types(LP64, NULL, 0, NULL, 0, &e) == 0);
    WANT(fmtcanon_types(LP64, "%d", 2, NULL, 0, &e) == 1);
    WANT(fmtcanon_fits_models(NULL, 0, NULL, 0, &e) == FMTCANON_IN_ALL);
    WANT(fmtcanon_same(LP64, NULL, 0, NULL, 0, &e) == 1);
    WANT(fmtcanon_same(LP64, NULL, 0, "", 0, &e) == 1);
    WANT(fmtcanon_compare(LP64, NULL, 0, NULL, 0, NULL, 0, &found, &e) == 0);
    WANT(fmtcanon_check("%d junk %", 2, &e) == 0);
    WANT(fmtcanon_canonical(LP64, "%d", 2, small, (size_t)-1 >> 1, &e) == 2);
    WANT(!strcmp(small, "%d"));
}

/* A text of `count` units and an end. */
static size_t repeat(char *text, const char *unit, size_t count, const char *end)
{
    size_t at = 0;
    for (text[0] = 0; count-- > 0; at += strlen(unit)) strcpy(text + at, unit);
    strcpy(text + at, end);
    return strlen(text);
}

/* At which numbers of arguments and lengths of texts a call begins to allocate, as the header says. */
static void thresholds(void)
{
    char text[512], out[512];
    fmtcanon_error e;
    fmtcanon_comparison found;
    size_t n, len;
    for (n = 30; n < 36; n++) {
        len = repeat(text, "%d", n, "");
        growths = 0;
        WANT(fmtcanon_types(LP64, text, len, (unsigned char *)out, sizeof out, &e) == (int64_t)n);
        WANT((growths > 0) == (n > 32));
        growths = 0;
        WANT(fmtcanon_arguments(LP64, text, len, (unsigned char *)out, sizeof out, &e) == (int64_t)n);
        WANT(growths == (n > 32));
    }
    for (n = 6; n < 12; n++) {
        len = repeat(text, "%d", n, "%y");
        growths = 0;
        WANT(fmtcanon_types(LP64, text, len, (unsigned char *)out, sizeof out, &e) == -FMTCANON_UNEXPECTED);
        WANT(e.at == 2 * n + 1 && (growths > 0) == (n > 8));
        WANT(fmtcanon_arguments(LP64, text, len, (unsigned char *)out, sizeof out, &e) == -FMTCANON_UNEXPECTED);
        WANT(fmtcanon_canonical(LP64, text, len, out, sizeof out, &e) == -FMTCANON_UNEXPECTED);
    }
    for (n = 124; n < 132; n++) {
        len = repeat(text, "x", n, "%i");
        growths = 0;
        WANT(fmtcanon_canonical(LP64, text, len, out, sizeof out, &e) == (int64_t)len && growths == (len > 128));
        /* A width of which only the last 11 columns stay in the directive, and `%11d` has four bytes. */
        len = (size_t)sprintf(text, "%%%lud", (unsigned long)n);
        growths = 0;
        WANT(fmtcanon_canonical(LP64, text, len, out, sizeof out, &e) == (int64_t)n - 7 && growths == 0);
        len = (size_t)sprintf(text, "%%%lud", (unsigned long)n + 7);
        WANT(fmtcanon_canonical(LP64, text, len, out, sizeof out, &e) == (int64_t)n && growths == (n > 128));
    }
    growths = 0;
    WANT(fmtcanon_whole_compare(LP64, "%d%f", 4, "%d", 2, out, sizeof out, &found, &e) == 0);
    WANT(found.verdict == FMTCANON_TYPES && found.number == 1 && growths == 0);
    WANT(fmtcanon_whole_compare(LP64, "%y", 2, "%d", 2, out, sizeof out, &found, &e) == -FMTCANON_UNEXPECTED && growths == 0);
}

/* One of the calls that take memory. */
static int64_t growing(int call, char *out, size_t cap, fmtcanon_comparison *found,
                       fmtcanon_error *e)
{
    static const char many[] = "%d%d%d%d%d%d%d%d%d%d%4095d%4095d";
    static const char other[] = "%d%d%d%d%f%d%d%d%d%d%4095d%4095d";
    /* 33 arguments: one more than wait on the stack, as do 16 records of directives. */
    static const char more[] = "%d%d%d%d%d%d%d%d%d%d%d%d%d%d%d%d%d%d%d%d%d%d%d%d%d%d%d%d%d%d%d%d%d";
    if (call == 0) return fmtcanon_canonical(LP64, many, sizeof many - 1, out, cap, e);
    if (call == 1) return fmtcanon_types(LP64, more, sizeof more - 1, (unsigned char *)out, cap, e);
    if (call == 2) return fmtcanon_decode_literal("\"a\\n\"", 5, out, cap, e);
    if (call == 3) return fmtcanon_encode_literal("a\n", 2, out, cap);
    if (call == 4) return fmtcanon_arguments(LP64, more, sizeof more - 1, (unsigned char *)out, cap, e);
    if (call == 7) return fmtcanon_whole_canonical(LP64, other, sizeof other - 1, out, cap, e);
    if (call == 6) return fmtcanon_directives(LP64, more, sizeof more - 1, (void *)out, cap / sizeof(fmtcanon_directive), e);
    return fmtcanon_compare(LP64, "%d%s", 4, "%d%.4095s", 9, out, cap, found, e);
}

static void refusals_of_memory(void)
{
    static uint64_t room[2048];
    char *out = (char *)room;
    int call, n;
    for (call = 0; call < 8; call++) {
        for (n = 0;; n++) {
            fmtcanon_error e = {77, 78, 79};
            fmtcanon_comparison found = {77, 78, 79};
            int64_t result;
            out[0] = 'Z';
            growths = 0;
            fails_at = n;
            result = growing(call, out, sizeof room, &found, &e);
            fails_at = -1;
            WANT(held == 0);
            if (growths <= n) {
                WANT(result > 0);
                break;
            }
            WANT(result == FMTCANON_ERROR_NOMEMORY && out[0] == 'Z');
            WANT(e.at == 77 && e.kind == 78 && e.side == 79);
            WANT(found.number == 77 && found.verdict == 78 && found.renderings == 79);
        }
        WANT(n > 0);
    }
}

/* All of it is given back, whatever the room, and the canonical text, the bytes of a source and a
 * literal take one growth. */
static void memory_given_back(void)
{
    static uint64_t room[2048];
    static const size_t rooms[] = {0, 1, 8, sizeof room};
    char *out = (char *)room;
    fmtcanon_error e;
    fmtcanon_comparison found;
    size_t i;
    int call;
    for (i = 0; i < COUNT(rooms); i++) {
        for (call = 0; call < 8; call++) {
            growths = 0;
            WANT(growing(call, out, rooms[i], &found, &e) > 0);
            WANT(growths > 0 && held == 0 && (call == 1 || call == 5 || growths == 1));
        }
        growths = 0;
        WANT(fmtcanon_canonical(LP64, "%d%y", 4, out, rooms[i], &e) == -FMTCANON_UNEXPECTED);
        WANT(fmtcanon_types(LP64, "%d%d%d%d%d%d%d%d%d%y", 20, NULL, 0, &e) == -FMTCANON_UNEXPECTED);
        WANT(fmtcanon_compare(LP64, "%d", 2, "%d%y", 4, out, rooms[i], &found, &e) < 0);
        WANT(held == 0);
    }
}

static void without_memory(void)
{
    fmtcanon_error e;
    fmtcanon_comparison found;
    unsigned char out[8];
    growths = 0;
    fmtcanon_check("%d", 2, &e);
    fmtcanon_is_canonical(LP64, "%4095d", 6, &e);
    fmtcanon_canonical_length(LP64, "%4095d", 6, &e);
    fmtcanon_same(LP64, "%4095d%5c", 9, "%4095d    %c", 12, &e);
    fmtcanon_same_models("%4095d%5c", 9, "%4095d    %c", 12, &e);
    fmtcanon_types(LP64, "%d%d%d%d%d%d%d%d%d", 18, out, 8, &e);
    fmtcanon_arguments(LP64, "%*.*f%2$d", 9, out, 8, &e);
    fmtcanon_arguments(LP64, "%*.*f", 5, out, 8, &e);
    fmtcanon_canonical(LP64, "%5d%i%zu", 8, (char *)out, 8, &e);
    fmtcanon_compare(LP64, "%i", 2, "%d", 2, NULL, 0, &found, &e);
    fmtcanon_compare(LP64, "%i", 2, "%s", 2, NULL, 0, &found, &e);
    fmtcanon_canonical(LP64, "%y", 2, NULL, 0, &e);
    fmtcanon_whole_canonical(LP64, "%5.2f%i%zu", 10, (char *)out, 8, &e);
    fmtcanon_whole_canonical(LP64, "%f%y", 4, NULL, 0, &e);
    fmtcanon_decode_literal("\"\" \"\"", 5, NULL, 0, &e);
    fmtcanon_decode_literal("\"\\q", 3, NULL, 0, &e);
    fmtcanon_source_offset("\"a\\n\"", 5, 1);
    fmtcanon_fits(LP64, "%2$s%1$d", 8, "%d%s", 4, &e);
    fmtcanon_fits(LP64, "%d%s", 4, "%d%f", 4, &e);
    fmtcanon_fits_models("%2$s%1$d", 8, "%d%s", 4, &e);
    fmtcanon_directives(LP64, "%*.*f", 5, NULL, 0, &e);
    fmtcanon_directives(LP64, "%d%d%d%d%d%d%d%d%d%d%d%d%d%d%d%d", 32, NULL, 0, &e);
    fmtcanon_specifications(LP64, "%d%d%d%d%d%d%d%d%d%d%d%d%d%d%d%d%d%d%d%d%d%d%d%d%d%d%d%d%d%d%d%-+05.2d", 70, NULL, 0, &e);
    fmtcanon_specifications(LP64, "%2$d", 4, NULL, 0, &e);
    WANT(growths == 0);
}

/* Each call, of formats that take its longest ways. */
static void in_small_stack(void)
{
    static const char a[] = "%4095d%.4095s%#o%zd", b[] = "%4095d%.4094s%#o%ld", w[] = "%4095d%f%-*.3i%.4095s", v[] = "%4095d%f%-*.3i%.4094s";
    static char out[16384];
    unsigned char *bytes = (unsigned char *)out;
    struct fmtcanon_bounds bounds;
    fmtcanon_directive records[8];
    fmtcanon_specification parts[4];
    fmtcanon_error e;
    fmtcanon_comparison found;
    size_t n = strlen(a), m = strlen(w);
    WANT(fmtcanon_check(a, n, &e) == 0 && fmtcanon_is_canonical(LP64, a, n, &e) == 0);
    WANT(fmtcanon_canonical(LP64, a, n, out, sizeof out, &e) == fmtcanon_canonical_length(LP64, a, n, &e));
    WANT(fmtcanon_types(LP64, a, n, bytes, sizeof out, &e) == 4 && fmtcanon_bounds(LP64, a, n, &bounds, &e) == 0);
    WANT(fmtcanon_same(LP64, a, n, b, n, &e) == 0 && fmtcanon_same_models(a, n, b, n, &e) == 0);
    WANT(fmtcanon_compare(LP64, a, n, b, n, out, sizeof out, &found, &e) > 4094);
    WANT(fmtcanon_arguments(LP64, w, m, bytes, sizeof out, &e) == 5 && fmtcanon_directives(LP64, w, m, records, 8, &e) == 4);
    WANT(fmtcanon_specifications(LP64, w, m, parts, 4, &e) == 4 && fmtcanon_specifications(LP64, "%2$d", 4, parts, 4, &e) == -21);
    WANT(fmtcanon_fits(LP64, w, m, v, m, &e) == 1 && fmtcanon_fits_models(w, m, v, m, &e) == FMTCANON_IN_ALL);
    WANT(fmtcanon_fits_fewer(LP64, w, m, "%d", 2, &e) == 1);
    WANT(fmtcanon_fits_fewer_models(w, m, "%d", 2, &e) == FMTCANON_IN_ALL);
    WANT(fmtcanon_whole_canonical(LP64, w, m, out, sizeof out, &e) == fmtcanon_whole_canonical_length(LP64, w, m, &e));
    WANT(fmtcanon_whole_same(LP64, w, m, v, m, &e) == 0 && fmtcanon_whole_same_models(w, m, v, m, &e) == 0);
    WANT(fmtcanon_whole_compare(LP64, w, m, v, m, out, sizeof out, &found, &e) > 4094);
    WANT(fmtcanon_encode_literal(w, m, out, sizeof out) == (int64_t)m + 2 && fmtcanon_source_offset(out, m + 2, m) > 0);
    WANT(fmtcanon_decode_literal("\"\\t%d\"", 6, out, sizeof out, &e) == 3 && fmtcanon_kind_name(1, out, sizeof out) == 7);
}

/* Each call answers the same where `error` is NULL, of formats that are refused and of one that isn't. */
static void no_place_for_an_error(void)
{
    static const char *const texts[] = {"%i", "%y", "a%"};
    fmtcanon_error e;
    fmtcanon_comparison c;
    char out[8], same_out[8];
    unsigned char types[4];
    for (size_t i = 0; i < COUNT(texts); i++) {
        const char *t = texts[i];
        size_t n = strlen(t);
        WANT(fmtcanon_check(t, n, NULL) == fmtcanon_check(t, n, &e));
        WANT(fmtcanon_is_canonical(LP64, t, n, NULL) == fmtcanon_is_canonical(LP64, t, n, &e));
        WANT(fmtcanon_canonical_length(LP64, t, n, NULL) == fmtcanon_canonical_length(LP64, t, n, &e));
        memset(out, 0, sizeof out);
        memset(same_out, 0, sizeof same_out);
        WANT(fmtcanon_canonical(LP64, t, n, out, 8, NULL) == fmtcanon_canonical(LP64, t, n, same_out, 8, &e));
        WANT(memcmp(out, same_out, sizeof out) == 0);
        WANT(fmtcanon_types(LP64, t, n, types, 4, NULL) == fmtcanon_types(LP64, t, n, types, 4, &e));
        WANT(fmtcanon_same(LP64, "%d", 2, t, n, NULL) == fmtcanon_same(LP64, "%d", 2, t, n, &e));
        WANT(fmtcanon_same_models("%d", 2, t, n, NULL) == fmtcanon_same_models("%d", 2, t, n, &e));
        WANT(fmtcanon_compare(LP64, "%d", 2, t, n, out, 8, &c, NULL) == fmtcanon_compare(LP64, "%d", 2, t, n, out, 8, &c, &e));
    }
    WANT(fmtcanon_check("%y", 2, NULL) == -3 && fmtcanon_check("a%", 2, NULL) == -2);
}

int main(void)
{
    layout();
    numbers();
    models();
    two_texts();
    whole_language();
    directives();
    literals();
    literal_pages();
    pages();
    nothing();
    no_place_for_an_error();
    refusals_of_memory();
    memory_given_back();
    without_memory();
    thresholds();
    WANT(on_small_stack(in_small_stack, 20 * 1024));
    puts("the edges are as the header says");
    return 0;
}
