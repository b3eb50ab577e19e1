/* Each call over long texts: what it answers, how many allocations it makes, how much two comparisons hold at most, and that
 * nothing is held after it.
 *
 *   sizes SECONDS UNITS NAME      the row of this name over UNITS units, within SECONDS seconds of the processor
 *   sizes                         the names of the rows
 *
 * The answers are worked out from the number of units. It is linked with malloc, realloc and free wrapped. */
#define _GNU_SOURCE
#include "fmtcanon.h"
#include <malloc.h>
#include <signal.h>
#include <stdio.h>
#include <stdlib.h>
#include <string.h>
#include <sys/time.h>
#include <unistd.h>

#define WANT(holds) ((holds) ? (void)0 : failed(#holds))
#define COUNT(rows) (sizeof(rows) / sizeof *(rows))

/* LITTLE: what is held besides, and what a large block is rounded up by. */
enum { LP64 = FMTCANON_LP64, SPARE = 64, WORD = 8, LITTLE = 8192 };

static const char *now = "";
static size_t units;
static char *first, *second, *out;
static size_t first_len, second_len, room;
static fmtcanon_error error;
static fmtcanon_comparison found;
static int growths, held;
static size_t bytes, most;
void *__real_malloc(size_t n);
void *__real_realloc(void *p, size_t n);
void __real_free(void *p);

/* Counts the bytes of a block that is held from now on. */
static void *counted(void *p)
{
    bytes += malloc_usable_size(p);
    if (bytes > most) most = bytes;
    return p;
}

void *__wrap_malloc(size_t n)
{
    void *p = __real_malloc(n);
    growths++, held += p != NULL;
    return counted(p);
}

void *__wrap_realloc(void *p, size_t n)
{
    size_t before = malloc_usable_size(p);
    void *q = __real_realloc(p, n);
    growths++, held += p == NULL && q != NULL;
    if (q) bytes -= before, counted(q);
    return q;
}

void __wrap_free(void *p)
{
    held -= p != NULL;
    bytes -= malloc_usable_size(p);
    __real_free(p);
}

static void failed(const char *what)
{
    fprintf(stderr, "sizes.c: %s of %lu units: not so: %s\n", now, (unsigned long)units, what);
    exit(1);
}

static void too_slow(int signal)
{
    static const char text[] = ": it takes longer\n";
    (void)signal;
    if (write(2, now, strlen(now)) < 0 || write(2, text, sizeof text - 1) < 0) _exit(3);
    _exit(2);
}

/* A text of a front, `count` units and an end. */
static size_t fill(char *text, const char *front, const char *unit, size_t count, const char *end)
{
    size_t step = strlen(unit), at = strlen(front), k;
    memcpy(text, front, at);
    for (k = 0; k < count; k++, at += step) memcpy(text + at, unit, step);
    memcpy(text + at, end, strlen(end));
    return at + strlen(end);
}

static void one(const char *front, const char *unit, const char *end)
{
    first_len = fill(first, front, unit, units, end);
}

static void two(const char *unit, const char *end, const char *other_unit, const char *other_end)
{
    first_len = fill(first, "", unit, units, end);
    second_len = fill(second, "", other_unit, units, other_end);
}

static int is_repeated(const char *text, const char *unit, size_t count)
{
    size_t step = strlen(unit), k;
    for (k = 0; k < count; k++)
        if (memcmp(text + k * step, unit, step)) return 0;
    return 1;
}

static void check(void)
{
    one("", "%i", "");
    WANT(fmtcanon_check(first, first_len, &error) == 0 && growths == 0);
}

static void refused(void)
{
    one("", "%i", "%y");
    WANT(fmtcanon_check(first, first_len, &error) == -FMTCANON_UNEXPECTED);
    WANT(error.at == 2 * units + 1 && growths == 0);
    WANT(fmtcanon_arguments(LP64, first, first_len, NULL, 0, &error) == -FMTCANON_UNEXPECTED);
    WANT(fmtcanon_canonical(LP64, first, first_len, NULL, 0, &error) == -FMTCANON_UNEXPECTED);
    WANT(fmtcanon_types(LP64, first, first_len, NULL, 0, &error) == -FMTCANON_UNEXPECTED);
}

static void is_canonical(void)
{
    one("", "%d", "");
    WANT(fmtcanon_is_canonical(LP64, first, first_len, &error) == 1);
    one("", "%d", "%i");
    WANT(fmtcanon_is_canonical(LP64, first, first_len, &error) == 0 && growths == 0);
}

static void canonical_length(void)
{
    one("", "%5c", "");
    WANT(fmtcanon_canonical_length(LP64, first, first_len, &error) == (int64_t)(6 * units) && growths == 0);
}

static void canonical(void)
{
    one("", "%i", "");
    WANT(fmtcanon_canonical(LP64, first, first_len, out, room, &error) == (int64_t)(2 * units));
    WANT(is_repeated(out, "%d", units) && out[2 * units] == 0 && growths == 1);
}

static void types(void)
{
    one("", "%i", "");
    WANT(fmtcanon_types(LP64, first, first_len, (unsigned char *)out, room, &error) == (int64_t)units);
    WANT(is_repeated(out, "\1", units));
}

static void bounds(void)
{
    struct fmtcanon_bounds b;
    one("", "%5i", "");
    WANT(fmtcanon_bounds(LP64, first, first_len, &b, &error) == 0);
    WANT(b.least == 5 * units && b.greatest == 11 * units && growths == 0);
}

static void same(void)
{
    two("%i", "", "%d", "");
    WANT(fmtcanon_same(LP64, first, first_len, second, second_len, &error) == 1);
    WANT(fmtcanon_same_models(first, first_len, second, second_len, &error) == FMTCANON_IN_ALL);
    two("%i", "%05d", "%d", "%.5d");
    WANT(fmtcanon_same(LP64, first, first_len, second, second_len, &error) == 0);
    WANT(fmtcanon_same_models(first, first_len, second, second_len, &error) == FMTCANON_IN_NEITHER && growths == 0);
}

static void compare(void)
{
    two("%i", "", "%d", "");
    WANT(fmtcanon_compare(LP64, first, first_len, second, second_len, out, room, &found, &error) == 0);
    WANT(found.verdict == FMTCANON_SAME && growths == 0);
    two("%i", "%d", "%d", "%s");
    WANT(fmtcanon_compare(LP64, first, first_len, second, second_len, out, room, &found, &error) == 0);
    WANT(found.verdict == FMTCANON_TYPES && found.number == units && growths == 0);
}

static void compare_last(void)
{
    two("%i", "%05d", "%d", "%.5d");
    WANT(fmtcanon_compare(LP64, first, first_len, second, second_len, out, room, &found, &error) == (int64_t)(4 * units + 5));
    WANT(found.verdict == FMTCANON_DIFFERENT && found.number == units + 1);
    for (size_t k = 0; k < units; k++) WANT(!memcmp(out + 4 * k, "n:0", 4));
    WANT(!memcmp(out + 4 * units, "n:-1", 5));
    WANT(most <= 12 * first_len + LITTLE);
}

/* Two directives differ, so what the texts print is compared. */
static void compare_two(void)
{
    two("%9d", "%05d%05d", "%9d", "%.5d%.5d");
    WANT(fmtcanon_compare(LP64, first, first_len, second, second_len, out, room, &found, &error) == (int64_t)(4 * units + 9));
    WANT(found.verdict == FMTCANON_DIFFERENT && found.number == units + 2);
    WANT(is_repeated(out, "n:0", 1) && !memcmp(out + 4 * units, "n:-1\0n:0", 9));
    WANT(most <= 16 * first_len + LITTLE);
}

static void arguments(void)
{
    one("", "%d", "%f");
    WANT(fmtcanon_arguments(LP64, first, first_len, (unsigned char *)out, room, &error) == (int64_t)(units + 1));
    WANT(is_repeated(out, "\1", units) && out[units] == FMTCANON_DOUBLE && growths == 1);
}

static void fits(void)
{
    two("%i", "%f", "%d", "%f");
    WANT(fmtcanon_fits(LP64, first, first_len, second, second_len, &error) == 1);
    two("%i", "%f", "%d", "%s");
    WANT(fmtcanon_fits(LP64, first, first_len, second, second_len, &error) == 0 && growths == 0);
}

static void fits_fewer(void)
{
    two("%i", "%f", "%d", "");
    WANT(fmtcanon_fits_fewer(LP64, first, first_len, second, second_len, &error) == 1);
    WANT(fmtcanon_fits_fewer_models(first, first_len, second, second_len, &error) == FMTCANON_IN_ALL);
    two("%i", "", "%d", "%f");
    WANT(fmtcanon_fits_fewer(LP64, first, first_len, second, second_len, &error) == 0 && growths == 0);
}

static void directives(void)
{
    fmtcanon_directive *records = __real_malloc(units * sizeof *records);
    one("", "ab%i", "");
    WANT(records != NULL);
    WANT(fmtcanon_directives(LP64, first, first_len, records, units, &error) == (int64_t)units);
    for (size_t k = 0; k < units; k++) {
        WANT(records[k].begin == 4 * k + 2 && records[k].end == 4 * k + 4);
        WANT(records[k].argument == k && records[k].kind == FMTCANON_INT);
    }
    __real_free(records);
}

static void specifications(void)
{
    fmtcanon_specification *records = __real_malloc(units * sizeof *records);
    one("", "a%-i", "");
    WANT(records != NULL);
    WANT(fmtcanon_specifications(LP64, first, first_len, records, units, &error) == (int64_t)units);
    for (size_t k = 0; k < units; k++) {
        WANT(records[k].begin == 4 * k + 1 && records[k].width_at == 4 * k + 3 && records[k].end == 4 * k + 4);
        WANT(records[k].argument == k && records[k].needless == FMTCANON_PART_MINUS);
    }
    __real_free(records);
    one("%2$d", "%4$c", "");
    WANT(fmtcanon_specifications(LP64, first, first_len, NULL, 0, &error) == -FMTCANON_MISSING_ARGUMENT);
}

/* Literal bytes between any two directives. */
static void literal_runs(void)
{
    one("", "ab%i", "");
    WANT(fmtcanon_check(first, first_len, &error) == 0 && growths == 0);
    WANT(fmtcanon_types(LP64, first, first_len, (unsigned char *)out, room, &error) == (int64_t)units);
    growths = 0;
    WANT(fmtcanon_canonical(LP64, first, first_len, out, room, &error) == (int64_t)(4 * units));
    WANT(is_repeated(out, "ab%d", units) && out[4 * units] == 0 && growths == 1);
    two("ab%i", "", "ab%d", "");
    WANT(fmtcanon_same(LP64, first, first_len, second, second_len, &error) == 1);
    WANT(fmtcanon_fits(LP64, first, first_len, second, second_len, &error) == 1 && growths == 1);
}

/* Formats of the profile, compared in the whole language. */
static void whole_profile(void)
{
    two("%i", "", "%d", "");
    WANT(fmtcanon_whole_compare(LP64, first, first_len, second, second_len, out, room, &found, &error) == 0);
    WANT(found.verdict == FMTCANON_SAME && growths == 0);
    two("%i", "%d", "%d", "%s");
    WANT(fmtcanon_whole_compare(LP64, first, first_len, second, second_len, out, room, &found, &error) == 0);
    WANT(found.verdict == FMTCANON_TYPES && found.number == units && growths == 0);
    two("%i", "%05d", "%d", "%.5d");
    WANT(fmtcanon_whole_compare(LP64, first, first_len, second, second_len, out, room, &found, &error) == (int64_t)(4 * units + 5));
    WANT(found.verdict == FMTCANON_DIFFERENT && found.number == units + 1 && !memcmp(out + 4 * units, "n:-1", 5));
}

/* A stretch and a directive that the profile lacks, in turn. */
static void whole_canonical(void)
{
    one("", "%i%lf", "");
    WANT(fmtcanon_whole_canonical_length(LP64, first, first_len, &error) == (int64_t)(4 * units) && growths == 0);
    WANT(fmtcanon_whole_canonical(LP64, first, first_len, out, room, &error) == (int64_t)(4 * units));
    WANT(is_repeated(out, "%d%f", units) && out[4 * units] == 0 && growths == 1);
    one("", "%i%lf", "%y");
    WANT(fmtcanon_whole_canonical(LP64, first, first_len, out, room, &error) == -FMTCANON_UNEXPECTED);
    WANT(error.at == 5 * units + 1 && growths == 1);
}

static void whole_same(void)
{
    two("%i%lf", "", "%d%f", "");
    WANT(fmtcanon_whole_same(LP64, first, first_len, second, second_len, &error) == 1);
    WANT(fmtcanon_whole_same_models(first, first_len, second, second_len, &error) == FMTCANON_IN_ALL);
    WANT(fmtcanon_whole_compare(LP64, first, first_len, second, second_len, out, room, &found, &error) == 0);
    WANT(found.verdict == FMTCANON_SAME && growths == 0);
    two("%i%lf", "%e", "%d%f", "%f");
    WANT(fmtcanon_whole_compare(LP64, first, first_len, second, second_len, out, room, &found, &error) == 0);
    WANT(found.verdict == FMTCANON_DIRECTIVES && found.number == 2 * units && growths == 0);
}

static void whole_compare_last(void)
{
    two("%i%lf", "%05d", "%d%f", "%.5d");
    WANT(fmtcanon_whole_compare(LP64, first, first_len, second, second_len, out, room, &found, &error) == (int64_t)(8 * units + 5));
    WANT(found.verdict == FMTCANON_DIFFERENT && found.number == 2 * units + 1);
    for (size_t k = 0; k < units; k++) WANT(!memcmp(out + 8 * k, "n:0\0any", 8));
    WANT(!memcmp(out + 8 * units, "n:-1", 5));
    WANT(most <= 10 * first_len + LITTLE);
}

/* No format takes more arguments for its length. */
static void whole_compare_stars(void)
{
    two("%*d", "%05d", "%*d", "%.5d");
    WANT(fmtcanon_whole_compare(LP64, first, first_len, second, second_len, out, room, &found, &error) == (int64_t)(8 * units + 5));
    WANT(found.verdict == FMTCANON_DIFFERENT && found.number == 2 * units + 1);
    for (size_t k = 0; k < 2 * units; k++) WANT(!memcmp(out + 4 * k, "any", 4));
    WANT(!memcmp(out + 8 * units, "n:-1", 5));
    WANT(most <= 16 * first_len + LITTLE);
}

static void decode(void)
{
    one("\"", "\\11", "\"");
    WANT(fmtcanon_decode_literal(first, first_len, out, room, &error) == (int64_t)units);
    WANT(is_repeated(out, "\t", units) && out[units] == 0 && growths == 1);
    one("\"", "\\t", "\\q\"");
    WANT(fmtcanon_decode_literal(first, first_len, out, room, &error) == -FMTCANON_BAD_ESCAPE && error.at == 2 * units + 1);
}

static void encode(void)
{
    one("", "\t", "");
    WANT(fmtcanon_encode_literal(first, first_len, out, room) == (int64_t)(2 * units + 2));
    WANT(out[0] == '"' && is_repeated(out + 1, "\\t", units) && !strcmp(out + 2 * units + 1, "\"") && growths == 1);
}

static void source_offset(void)
{
    one("\"", "\\t", "\"");
    WANT(fmtcanon_source_offset(first, first_len, units - 1) == (int64_t)(2 * units - 1));
    WANT(fmtcanon_source_offset(first, first_len, units) == (int64_t)(2 * units + 1));
    WANT(fmtcanon_source_offset(first, first_len, units + 1) == FMTCANON_ERROR_NOPLACE && growths == 0);
}

static const struct {
    const char *name;
    void (*make)(void);
} ROWS[] = {
    {"check", check}, {"refused", refused}, {"is_canonical", is_canonical}, {"canonical_length", canonical_length},
    {"canonical", canonical}, {"types", types}, {"bounds", bounds}, {"same", same}, {"compare", compare}, {"compare_last", compare_last}, {"compare_two", compare_two},
    {"arguments", arguments}, {"fits", fits}, {"fits_fewer", fits_fewer},
    {"directives", directives}, {"specifications", specifications}, {"literal_runs", literal_runs}, {"whole_profile", whole_profile}, {"whole_canonical", whole_canonical}, {"whole_same", whole_same},
    {"whole_compare_last", whole_compare_last}, {"whole_compare_stars", whole_compare_stars}, {"decode_literal", decode}, {"encode_literal", encode}, {"source_offset", source_offset},
};

static void make_room(void)
{
    room = units * WORD + SPARE;
    first = malloc(room);
    second = malloc(room);
    out = malloc(room);
    if (!first || !second || !out) failed("there is room");
}

static void try_row(size_t k, long seconds)
{
    struct itimerval limit = {{0, 0}, {0, 0}};
    limit.it_value.tv_sec = seconds;
    now = ROWS[k].name;
    signal(SIGPROF, too_slow);
    setitimer(ITIMER_PROF, &limit, NULL);
    growths = held = 0;
    bytes = most = 0;
    ROWS[k].make();
    WANT(held == 0);
}

int main(int argc, char **argv)
{
    size_t k, tried = 0;
    for (k = 0; argc == 1 && k < COUNT(ROWS); k++) puts(ROWS[k].name);
    if (argc == 1) return 0;
    if (argc != 4) return 64;
    units = strtoul(argv[2], NULL, 10);
    make_room();
    for (k = 0; k < COUNT(ROWS); k++)
        if (!strcmp(argv[3], ROWS[k].name)) try_row(k, atol(argv[1])), tried++;
    free(first), free(second), free(out);
    return tried == 1 ? 0 : 64;
}
