/* Each call at each of its outcomes, in each data model and with rooms that are too small or not: all memory is given back,
 * each allocation is refused in turn, and what a call leaves as it was lies in a page that can't be written. Refusals write
 * to `error` alone, answers don't, and without room nothing is written. It is linked with malloc, realloc and free wrapped. */
#define _GNU_SOURCE
#include "fmtcanon.h"
#include <signal.h>
#include <stdio.h>
#include <stdlib.h>
#include <string.h>
#include <sys/mman.h>
#include <unistd.h>

#define COUNT(rows) (sizeof(rows) / sizeof *(rows))

enum call {
    CHECK, IS_CANONICAL, CANONICAL_LENGTH, CANONICAL, TYPES, BOUNDS, SAME, SAME_MODELS, COMPARE, ARGUMENTS, FITS, FITS_MODELS,
    FITS_FEWER, FITS_FEWER_MODELS,
    WHOLE_CANONICAL, WHOLE_LENGTH, WHOLE_SAME, WHOLE_MODELS, WHOLE_COMPARE, DIRECTIVES, SPECIFICATIONS, DECODE, ENCODE, SOURCE_OFFSET, KIND_NAME,
    CALLS
};
enum { SIZE = 32768, RECORD = sizeof(fmtcanon_directive), LONG_RECORD = sizeof(fmtcanon_specification) };

static const char *const NAMES[CALLS] = {
    "check", "is_canonical", "canonical_length", "canonical", "types", "bounds", "same", "same_models", "compare", "arguments", "fits",
    "fits_models", "fits_fewer", "fits_fewer_models", "whole_canonical", "whole_canonical_length", "whole_same", "whole_same_models", "whole_compare", "directives", "specifications", "decode_literal", "encode_literal", "source_offset", "kind_name"};
#define TEN "%d%d%d%d%d%d%d%d%d%d"
static const struct {
    const char *first, *second;
} TEXTS[] = {
    {"", ""}, {"%i", "%d"}, {"%zi", "%d"}, {"a", "b"}, {TEN "%4095d%s", TEN "%.4095d%s"}, {TEN "%s", TEN "%.4095s"},
    {TEN "%d", TEN "%s"}, {TEN "%y", "%d"}, {TEN, TEN "%y"}, {"%*d", "%y"}, {"%2$s%1$d", "%d%s"}, {"%*.*f%ls", "%d%d%f%s"},
    {TEN "%1$d", "%d"}, {"%f" TEN "%d%.6f%s", "%.6f" TEN "%5d%f%s"}, {"%*d%i%f", "%*d%d%e"}, {"%zn%.0f", "%ln%.f"}, {TEN TEN "%5n", "%n"}, {"%2$d", "%d%2$d"}, {"%1$d%1$s", "%1$d%1$d"}, {"\"%d\\n\" \"\\11\"", "x"},
    {"\"aaaaaaaaaaaaaaaa\\q\"", "\"\""}, {"\"a", "\"\\x100\""}, {"\"a?" "?=\"", "\"\\0\""}, {"\t\"?" "?=\1", "\377"}};
static const int MODELS[] = {FMTCANON_LP64, FMTCANON_ILP32, FMTCANON_LLP64, 3};
static const size_t ROOMS[] = {0, 1, 2, 9, 2 * LONG_RECORD, SIZE / 2};

static char now[128] = "", *locked_end;
static int fails_at = -1, growths, held;
void *__real_malloc(size_t n);
void *__real_realloc(void *p, size_t n);
void __real_free(void *p);

void *__wrap_malloc(size_t n)
{
    void *p = growths++ == fails_at ? NULL : __real_malloc(n);
    held += p != NULL;
    return p;
}

void *__wrap_realloc(void *p, size_t n)
{
    void *q = growths++ == fails_at ? NULL : __real_realloc(p, n);
    held += p == NULL && q != NULL;
    return q;
}

void __wrap_free(void *p)
{
    held -= p != NULL;
    __real_free(p);
}

static void want(int holds, const char *what)
{
    if (holds) return;
    fprintf(stderr, "outcomes.c: %s: not so: %s\n", now, what);
    exit(1);
}

static void written(int signal)
{
    static const char text[] = ": it writes what it leaves as it was\n";
    (void)signal;
    if (write(2, now, strlen(now)) < 0 || write(2, text, sizeof text - 1) < 0) _exit(3);
    _exit(2);
}

/* Pages that can't be written, with one after them that can't be read. */
static void lock_pages(void)
{
    char *p = mmap(NULL, SIZE + 4096, PROT_READ | PROT_WRITE, MAP_PRIVATE | MAP_ANONYMOUS, -1, 0);
    want(p != MAP_FAILED, "there are pages");
    memset(p, 'Z', SIZE);
    want(!mprotect(p, SIZE, PROT_READ) && !mprotect(p + SIZE, 4096, PROT_NONE), "they are locked");
    locked_end = p + SIZE;
}

/* The last bytes of these pages. */
static void *locked(size_t len) { return locked_end - len; }

struct given {
    enum call call;
    int model;
    const char *first, *second;
    char *out;
    size_t cap;
    fmtcanon_comparison *found;
    struct fmtcanon_bounds *bounds;
    fmtcanon_error *error;
};

/* The last records of a size for which the buffer has room. */
static size_t records(const struct given *g, size_t size) { return g->cap / size; }

static void *last_records(const struct given *g, size_t size)
{
    return records(g, size) == 0 ? NULL : g->out + g->cap % size;
}

static int64_t made(const struct given *g)
{
    const char *f = g->first, *s = g->second;
    size_t n = strlen(f), m = strlen(s);
    unsigned char *bytes = (unsigned char *)g->out;
    switch (g->call) {
    case CHECK: return fmtcanon_check(f, n, g->error);
    case IS_CANONICAL: return fmtcanon_is_canonical(g->model, f, n, g->error);
    case CANONICAL_LENGTH: return fmtcanon_canonical_length(g->model, f, n, g->error);
    case CANONICAL: return fmtcanon_canonical(g->model, f, n, g->out, g->cap, g->error);
    case TYPES: return fmtcanon_types(g->model, f, n, bytes, g->cap, g->error);
    case BOUNDS: return fmtcanon_bounds(g->model, f, n, g->bounds, g->error);
    case SAME: return fmtcanon_same(g->model, f, n, s, m, g->error);
    case SAME_MODELS: return fmtcanon_same_models(f, n, s, m, g->error);
    case COMPARE: return fmtcanon_compare(g->model, f, n, s, m, g->out, g->cap, g->found, g->error);
    case ARGUMENTS: return fmtcanon_arguments(g->model, f, n, bytes, g->cap, g->error);
    case FITS: return fmtcanon_fits(g->model, f, n, s, m, g->error);
    case FITS_MODELS: return fmtcanon_fits_models(f, n, s, m, g->error);
    case FITS_FEWER: return fmtcanon_fits_fewer(g->model, f, n, s, m, g->error);
    case FITS_FEWER_MODELS: return fmtcanon_fits_fewer_models(f, n, s, m, g->error);
    case WHOLE_CANONICAL: return fmtcanon_whole_canonical(g->model, f, n, g->out, g->cap, g->error);
    case WHOLE_LENGTH: return fmtcanon_whole_canonical_length(g->model, f, n, g->error);
    case WHOLE_SAME: return fmtcanon_whole_same(g->model, f, n, s, m, g->error);
    case WHOLE_MODELS: return fmtcanon_whole_same_models(f, n, s, m, g->error);
    case WHOLE_COMPARE: return fmtcanon_whole_compare(g->model, f, n, s, m, g->out, g->cap, g->found, g->error);
    case DIRECTIVES:
        return fmtcanon_directives(g->model, f, n, last_records(g, RECORD), records(g, RECORD), g->error);
    case SPECIFICATIONS:
        return fmtcanon_specifications(g->model, f, n, last_records(g, LONG_RECORD), records(g, LONG_RECORD), g->error);
    case DECODE: return fmtcanon_decode_literal(f, n, g->out, g->cap, g->error);
    case ENCODE: return fmtcanon_encode_literal(f, n, g->out, g->cap);
    case SOURCE_OFFSET: return fmtcanon_source_offset(f, n, m);
    default: return (int64_t)fmtcanon_kind_name((uint32_t)n, g->out, g->cap);
    }
}

/* Whether an answer of `result` bytes or records has room: a text has a NUL byte after it. */
static int has_room(const struct given *g, int64_t result)
{
    int is_text = g->call == CANONICAL || g->call == WHOLE_CANONICAL || g->call == DECODE || g->call == ENCODE || g->call == KIND_NAME;
    if (g->call == DIRECTIVES) return result >= 0 && (uint64_t)result <= records(g, RECORD);
    if (g->call == SPECIFICATIONS) return result >= 0 && (uint64_t)result <= records(g, LONG_RECORD);
    return result >= 0 && (uint64_t)result + (is_text ? 1 : 0) <= g->cap;
}

static int64_t counted(const struct given *g)
{
    int64_t result;
    growths = 0;
    result = made(g);
    want(held == 0, "all memory is given back");
    return result;
}

/* The call with each allocation refused: memory is out, and nothing is written. A call that has taken memory for a text with
 * a fault may say that fault. */
static void try_refused(struct given g, int64_t result, int count)
{
    static const fmtcanon_error before = {77, 78, 79};
    g.out = locked(g.cap), g.error = locked(sizeof before), g.found = locked(sizeof *g.found), g.bounds = locked(sizeof *g.bounds);
    for (fails_at = 0; fails_at < count; fails_at++) {
        fmtcanon_error error = before;
        int64_t found;
        if (result < 0) g.error = &error;
        found = counted(&g);
        want(found == FMTCANON_ERROR_NOMEMORY || (result < 0 && found == result), "memory is out where an allocation is refused");
        want(found == result || !memcmp(&error, &before, sizeof error), "the error is left as it was");
    }
    fails_at = -1;
}

/* The call as it is, then with what it leaves alone locked, and then with each allocation refused. */
static void try_one(struct given g)
{
    static uint64_t out[SIZE / sizeof(uint64_t)];
    fmtcanon_error error;
    fmtcanon_comparison found;
    struct fmtcanon_bounds bounds;
    int64_t result;
    int count;
    g.out = (char *)out, g.error = &error, g.found = &found, g.bounds = &bounds;
    result = counted(&g);
    count = growths;
    if (!has_room(&g, result)) g.out = locked(g.cap);
    if (result >= 0 || result == FMTCANON_ERROR_MODEL) g.error = locked(sizeof error);
    if (result < 0) g.found = locked(sizeof found), g.bounds = locked(sizeof bounds);
    want(counted(&g) == result && growths == count, "the same result and as many allocations");
    try_refused(g, result, count);
}

int main(void)
{
    size_t text, model, room;
    int call;
    signal(SIGSEGV, written);
    lock_pages();
    for (call = 0; call < CALLS; call++)
        for (text = 0; text < COUNT(TEXTS); text++)
            for (model = 0; model < COUNT(MODELS); model++)
                for (room = 0; room < COUNT(ROOMS); room++) {
                    struct given g = {call, MODELS[model], TEXTS[text].first, TEXTS[text].second, NULL, ROOMS[room], NULL, NULL, NULL};
                    sprintf(now, "%s of texts %d, model %d, room %d", NAMES[call], (int)text, (int)model, (int)ROOMS[room]);
                    try_one(g);
                }
    printf("calls %d, pairs of texts %d, data models %d, rooms %d\n", CALLS, (int)COUNT(TEXTS), (int)COUNT(MODELS), (int)COUNT(ROOMS));
    return 0;
}
