/* The records of conversion specifications with their parts: where each part is, which have no effect, and what is known of
 * the specification in which a format is rejected. */
#include "fmtcanon.h"
#include <stddef.h>
#include <stdio.h>
#include <stdlib.h>
#include <string.h>

#define WANT(holds) ((holds) ? (void)0 : failed(__LINE__, #holds))
#define COUNT(rows) (sizeof(rows) / sizeof *(rows))

enum {
    LP64 = FMTCANON_LP64, ILP32 = FMTCANON_ILP32, LLP64 = FMTCANON_LLP64,
    MINUS = FMTCANON_PART_MINUS, PLUS = FMTCANON_PART_PLUS, SPACE = FMTCANON_PART_SPACE, ALT = FMTCANON_PART_ALT,
    ZERO = FMTCANON_PART_ZERO, GROUP = FMTCANON_PART_GROUP, WIDTH = FMTCANON_PART_WIDTH, PRECISION = FMTCANON_PART_PRECISION,
    MODIFIER = FMTCANON_PART_MODIFIER
};
#define NONE FMTCANON_NONE

static const char *now = "";

static void failed(int line, const char *what)
{
    fprintf(stderr, "specifications.c:%d: %s: not so: %s\n", line, now, what);
    exit(1);
}

static void layout(void)
{
    WANT(sizeof(fmtcanon_specification) == 104);
    WANT(offsetof(fmtcanon_specification, begin) == 0 && offsetof(fmtcanon_specification, flags_at) == 8);
    WANT(offsetof(fmtcanon_specification, width_at) == 16 && offsetof(fmtcanon_specification, precision_at) == 24);
    WANT(offsetof(fmtcanon_specification, modifier_at) == 32 && offsetof(fmtcanon_specification, end) == 40);
    WANT(offsetof(fmtcanon_specification, argument) == 48 && offsetof(fmtcanon_specification, width_argument) == 56);
    WANT(offsetof(fmtcanon_specification, precision_argument) == 64 && offsetof(fmtcanon_specification, width) == 72);
    WANT(offsetof(fmtcanon_specification, precision) == 80 && offsetof(fmtcanon_specification, kind) == 88);
    WANT(offsetof(fmtcanon_specification, parts) == 92 && offsetof(fmtcanon_specification, needless) == 96);
    WANT(offsetof(fmtcanon_specification, together) == 100);
}

static int is_same(const fmtcanon_specification *a, const fmtcanon_specification *b)
{
    return a->begin == b->begin && a->flags_at == b->flags_at && a->width_at == b->width_at && a->precision_at == b->precision_at
           && a->modifier_at == b->modifier_at && a->end == b->end && a->argument == b->argument
           && a->width_argument == b->width_argument && a->precision_argument == b->precision_argument && a->width == b->width
           && a->precision == b->precision && a->kind == b->kind && a->parts == b->parts && a->needless == b->needless
           && a->together == b->together;
}

/* The last specification of a text: its offsets, arguments, numbers, type, parts, and those that have no effect, as
 * C11 7.21.6.1 says of them. */
static const struct {
    const char *text;
    fmtcanon_specification last;
} ROWS[] = {
    {"%d", {0, 1, 1, 1, 1, 2, 0, NONE, NONE, NONE, NONE, FMTCANON_INT, 0, 0, 0}},
    {"a%%%-5.3ld", {3, 4, 5, 6, 8, 10, 0, NONE, NONE, 5, 3, FMTCANON_LONG, MINUS | WIDTH | PRECISION | MODIFIER, 0, 0}},
    {"%c%+ d", {2, 3, 5, 5, 5, 6, 1, NONE, NONE, NONE, NONE, FMTCANON_INT, PLUS | SPACE, SPACE, SPACE}},
    {"%-0-5i", {0, 1, 4, 5, 5, 6, 0, NONE, NONE, 5, NONE, FMTCANON_INT, MINUS | ZERO | WIDTH, ZERO, ZERO}},
    {"%05.3u", {0, 1, 2, 3, 5, 6, 0, NONE, NONE, 5, 3, FMTCANON_UINT, ZERO | WIDTH | PRECISION, ZERO, ZERO}},
    {"%02.2u", {0, 1, 2, 3, 5, 6, 0, NONE, NONE, 2, 2, FMTCANON_UINT, ZERO | WIDTH | PRECISION, ZERO | WIDTH | PRECISION, ZERO | WIDTH}},
    {"%.x", {0, 1, 1, 1, 2, 3, 0, NONE, NONE, NONE, 0, FMTCANON_UINT, PRECISION, 0, 0}},
    {"%.001x", {0, 1, 1, 1, 5, 6, 0, NONE, NONE, NONE, 1, FMTCANON_UINT, PRECISION, PRECISION, PRECISION}},
    {"%*.*f", {0, 1, 1, 2, 4, 5, 2, 0, 1, NONE, NONE, FMTCANON_DOUBLE, WIDTH | PRECISION, 0, 0}},
    {"%'.6lf", {0, 1, 2, 2, 4, 6, 0, NONE, NONE, NONE, 6, FMTCANON_DOUBLE, GROUP | PRECISION | MODIFIER, GROUP | PRECISION | MODIFIER,
                GROUP | PRECISION | MODIFIER}},
    {"%#Lg", {0, 1, 2, 2, 2, 4, 0, NONE, NONE, NONE, NONE, FMTCANON_LONG_DOUBLE, ALT | MODIFIER, 0, 0}},
    {"%1$s%2$+5jd", {4, 7, 8, 9, 9, 11, 1, NONE, NONE, 5, NONE, FMTCANON_LONG, PLUS | WIDTH | MODIFIER, 0, 0}},
    {"%3$0*1$.*2$hhd", {0, 3, 4, 7, 11, 14, 2, 0, 1, NONE, NONE, FMTCANON_INT, ZERO | WIDTH | PRECISION | MODIFIER, 0, 0}},
    {"%lln", {0, 1, 1, 1, 1, 4, 0, NONE, NONE, NONE, NONE, FMTCANON_POINTER_TO_LONG_LONG, MODIFIER, 0, 0}},
    {"%4ls", {0, 1, 1, 2, 2, 4, 0, NONE, NONE, 4, NONE, FMTCANON_WIDE_STRING, WIDTH | MODIFIER, 0, 0}},
    {"% s", {0, 1, 2, 2, 2, 3, 0, NONE, NONE, NONE, NONE, FMTCANON_STRING, SPACE, SPACE, SPACE}},
};

static void listed(void)
{
    fmtcanon_specification out[4], before[4];
    fmtcanon_error e;
    size_t i, k;
    memset(before, 'Z', sizeof before);
    for (i = 0; i < COUNT(ROWS); i++) {
        const char *text = now = ROWS[i].text;
        int64_t count = fmtcanon_specifications(LP64, text, strlen(text), NULL, 0, NULL);
        WANT(count > 0 && count < 4);
        memset(out, 'Z', sizeof out);
        WANT(fmtcanon_specifications(LP64, text, strlen(text), out, (size_t)count - 1, &e) == count);
        WANT(!memcmp(out, before, sizeof out));
        WANT(fmtcanon_specifications(LP64, text, strlen(text), out, 4, &e) == count);
        WANT(is_same(out + count - 1, &ROWS[i].last));
        for (k = (size_t)count; k < 4; k++) WANT(!memcmp(out + k, before + k, sizeof *out));
    }
    now = "data models";
    WANT(fmtcanon_specifications(LP64, "%zu", 3, out, 4, &e) == 1 && out->kind == FMTCANON_ULONG && out->needless == 0);
    WANT(fmtcanon_specifications(ILP32, "%zu", 3, out, 4, &e) == 1 && out->kind == FMTCANON_UINT && out->needless == MODIFIER);
    WANT(fmtcanon_specifications(LLP64, "%ld", 3, out, 4, &e) == 1 && out->kind == FMTCANON_LONG && out->needless == 0);
    memcpy(before, out, sizeof out);
    e.at = 77;
    WANT(fmtcanon_specifications(3, "%d", 2, out, 4, &e) == FMTCANON_ERROR_MODEL && e.at == 77);
    WANT(!memcmp(out, before, sizeof out));
}

/* A text that is rejected, why and where. */
static const struct {
    const char *text;
    size_t len;
    int kind;
    uint64_t at;
} REJECTED[] = {
    {"a\0b", 3, FMTCANON_NUL_BYTE, 1},
    {"%d%5\0", 5, FMTCANON_NUL_BYTE, 4},
    {"%%%", 3, FMTCANON_TRUNCATED, 3},
    {"ab%5y", 5, FMTCANON_UNEXPECTED, 4},
    {"%5%", 3, FMTCANON_BAD_PERCENT, 2},
    {"%s%4096d", 8, FMTCANON_WIDTH_TOO_LARGE, 6},
    {"%+#5d", 5, FMTCANON_ALT_UNDEFINED, 4},
    {"%s%010.2s", 9, FMTCANON_ZERO_UNDEFINED, 8},
    {"%1$'x", 5, FMTCANON_GROUP_UNDEFINED, 4},
    {"%3.4c", 5, FMTCANON_PRECISION_UNDEFINED, 4},
    {"%%%hhs.", 7, FMTCANON_LENGTH_UNDEFINED, 5},
    {"%-*ln", 5, FMTCANON_COUNT_UNDEFINED, 4},
    {"%d%1$d", 6, FMTCANON_MIXED, 4},
    {"%1$d%-d", 7, FMTCANON_MIXED, 5},
    {"%1$*d", 5, FMTCANON_MIXED, 4},
    {"%1$d %1$s", 9, FMTCANON_TWO_TYPES, 8},
    {"%1$s%2$*1$.3d", 13, FMTCANON_TWO_TYPES, 9},
    {"%1$s%2$*1$", 10, FMTCANON_TWO_TYPES, 9},
    {"%2$d", 4, FMTCANON_MISSING_ARGUMENT, 4},
    {"%1$d %4$*2$d %3$s%6$c", 21, FMTCANON_MISSING_ARGUMENT, 21},
    {"%1$s%2$.*4$f%4095$d", 19, FMTCANON_MISSING_ARGUMENT, 19},
};

static void rejected(void)
{
    fmtcanon_specification out[1], before[1];
    fmtcanon_error e;
    size_t i;
    memset(before, 'Z', sizeof before);
    memset(out, 'Z', sizeof out);
    for (i = 0; i < COUNT(REJECTED); i++) {
        now = REJECTED[i].text;
        WANT(fmtcanon_specifications(LP64, now, REJECTED[i].len, out, 1, &e) == -REJECTED[i].kind);
        WANT(e.at == REJECTED[i].at && e.kind == (uint32_t)REJECTED[i].kind && e.side == 0);
        WANT(!memcmp(out, before, sizeof out));
        WANT(fmtcanon_specifications(LP64, now, REJECTED[i].len, NULL, 0, NULL) == -REJECTED[i].kind);
    }
}

/* The text without a part, by its offsets. */
static size_t without(char *to, const char *text, const fmtcanon_specification *s, uint32_t part)
{
    static const char flags[] = "-+ #0'";
    size_t len = 0;
    uint64_t at;
    for (at = s->begin; at < s->end; at++) {
        int is_flag = at >= s->flags_at && at < s->width_at, is_last = at + 1 == s->end;
        int is_width = at >= s->width_at && at < s->precision_at, is_precision = at >= s->precision_at && at < s->modifier_at;
        if (is_flag && part < WIDTH && part == 1u << (strchr(flags, text[at]) - flags)) continue;
        if ((part == WIDTH && is_width) || (part == PRECISION && is_precision)) continue;
        if (part == MODIFIER && at >= s->modifier_at && !is_last) continue;
        to[len++] = text[at];
    }
    return len;
}

/* A part is in `needless` if and only if the specification is the same without it, as fmtcanon_whole_same() says. */
static void try_needless(const char *text)
{
    fmtcanon_specification s;
    fmtcanon_error e;
    char shorter[32];
    size_t len = strlen(text);
    uint32_t part;
    now = text;
    if (fmtcanon_specifications(LP64, text, len, &s, 1, NULL) != 1) return;
    WANT((s.needless & ~s.parts) == 0 && (s.together & ~s.needless) == 0);
    for (part = MINUS; part <= MODIFIER; part *= 2) {
        size_t left = without(shorter, text, &s, part);
        int has = left < len;
        WANT(has == ((s.parts & part) != 0));
        WANT((has && fmtcanon_whole_same(LP64, text, len, shorter, left, &e) == 1) == ((s.needless & part) != 0));
    }
}

static void needless(void)
{
    static const char *const widths[] = {"", "1", "07", "*"}, *const precisions[] = {"", ".", ".1", ".7", ".*"};
    static const char *const modifiers[] = {"", "hh", "l", "j", "L"};
    static const char *const conversions = "diuoxXbcsfFeGaCSpn";
    char text[32];
    size_t w, p, m, c;
    unsigned flags, bit;
    for (flags = 0; flags < 64; flags++)
        for (w = 0; w < COUNT(widths); w++)
            for (p = 0; p < COUNT(precisions); p++)
                for (m = 0; m < COUNT(modifiers); m++)
                    for (c = 0; conversions[c]; c++) {
                        size_t len = 0;
                        text[len++] = '%';
                        for (bit = 0; bit < 6; bit++)
                            if (flags >> bit & 1) text[len++] = "-+ #0'"[bit];
                        sprintf(text + len, "%s%s%s%c", widths[w], precisions[p], modifiers[m], conversions[c]);
                        try_needless(text);
                    }
}

int main(void)
{
    layout();
    listed();
    rejected();
    needless();
    puts("the parts of specifications are as the header says");
    return 0;
}
