/* Makes one call of libfmtcanon over every format of a file, so that its instructions can be counted from outside.
 *
 *   library CALL ROUNDS FILE       FILE has formats, each with a NUL after it
 *
 * Prints the sum of what the calls return. */
#include <fmtcanon.h>
#include <printf.h>
#include <stdio.h>
#include <stdlib.h>
#include <string.h>

enum { MOST = 1 << 20 };

static char texts[4 * MOST], other[MOST], out[MOST];
static int types[MOST];
static fmtcanon_directive found[MOST];
static fmtcanon_specification parts[MOST];
/* The lengths of the formats without their last directives, the offsets of the conversions of these, and the number of the
 * format of this call. */
static size_t fronts[MOST], conversions[MOST], now;
static fmtcanon_error error;

/* A byte that begins no directive and is another than this one. */
static char another(char byte) { return byte == 'q' ? 'r' : 'q'; }

/* A conversion that a directive may have in place of this one; NUL in place of NUL. */
static char another_conversion(char byte)
{
    switch (byte) {
    case 0: return 0;
    case 'd': return 'i';
    case 'b': case 'o': case 'X': return 'x';
    case 'x': return 'X';
    default: return 'd';
    }
}

static int64_t same(const char *text, size_t len, size_t other_len)
{
    return fmtcanon_same(FMTCANON_LP64, text, len, other, other_len, &error);
}

/* `other` has a copy of the text. */
static int64_t nothing(const char *text, size_t len) { return (void)text, (void)len, 0; }
static int64_t parse(const char *text, size_t len) { return (void)len, (int64_t)parse_printf_format(text, MOST, types); }
static int64_t check(const char *text, size_t len) { return fmtcanon_check(text, len, &error); }

static int64_t types_of(const char *text, size_t len)
{
    return fmtcanon_types(FMTCANON_LP64, text, len, (unsigned char *)out, sizeof out, &error);
}

static int64_t arguments(const char *text, size_t len)
{
    return fmtcanon_arguments(FMTCANON_LP64, text, len, (unsigned char *)out, sizeof out, &error);
}

static int64_t is_canonical(const char *text, size_t len) { return fmtcanon_is_canonical(FMTCANON_LP64, text, len, &error); }

static int64_t canonical(const char *text, size_t len)
{
    return fmtcanon_canonical(FMTCANON_LP64, text, len, out, sizeof out, &error);
}

static int64_t length(const char *text, size_t len) { return fmtcanon_canonical_length(FMTCANON_LP64, text, len, &error); }
static int64_t fits(const char *text, size_t len) { return fmtcanon_fits(FMTCANON_LP64, text, len, other, len, &error); }
static int64_t fits_fewer(const char *text, size_t len)
{
    return fmtcanon_fits_fewer(FMTCANON_LP64, text, len, other, len, &error);
}

/* Where the last directive begins, or where the text ends. */
static size_t front_of(const char *text, size_t len)
{
    size_t front = len, at = 0;
    while (at < len) {
        if (text[at] == '%' && text[at + 1] != '%') front = at;
        at += text[at] == '%' ? 2 : 1;
    }
    return front;
}

/* Where the last directive has its conversion, or where the text ends. */
static size_t conversion_of(const char *text, size_t len)
{
    size_t front = front_of(text, len);
    return front + strcspn(text + front, "bcdiosuxX");
}

static int64_t fits_front(const char *text, size_t len)
{
    return fmtcanon_fits_fewer(FMTCANON_LP64, text, len, other, fronts[now++], &error);
}

static int64_t bounds(const char *text, size_t len)
{
    struct fmtcanon_bounds most;
    return fmtcanon_bounds(FMTCANON_LP64, text, len, &most, &error) + (int64_t)most.least;
}

static int64_t specifications(const char *text, size_t len)
{
    return fmtcanon_specifications(FMTCANON_LP64, text, len, parts, sizeof parts / sizeof *parts, &error);
}

static int64_t directives(const char *text, size_t len)
{
    return fmtcanon_directives(FMTCANON_LP64, text, len, found, sizeof found / sizeof *found, &error);
}

static int64_t whole_canonical(const char *text, size_t len)
{
    return fmtcanon_whole_canonical(FMTCANON_LP64, text, len, out, sizeof out, &error);
}

static int64_t whole_length(const char *text, size_t len)
{
    return fmtcanon_whole_canonical_length(FMTCANON_LP64, text, len, &error);
}

static int64_t whole_same(const char *text, size_t len, size_t other_len)
{
    return fmtcanon_whole_same(FMTCANON_LP64, text, len, other, other_len, &error);
}

static int64_t whole_itself(const char *text, size_t len) { return whole_same(text, len, len); }
static int64_t whole_appended(const char *text, size_t len) { return other[len] = 'x', whole_same(text, len, len + 1); }

static void change_conversion(void) { other[conversions[now]] = another_conversion(other[conversions[now]]), now++; }
static int64_t whole_conversion(const char *text, size_t len) { return change_conversion(), whole_same(text, len, len); }

static int64_t same_itself(const char *text, size_t len) { return same(text, len, len); }
static int64_t first_changed(const char *text, size_t len) { return other[0] = another(other[0]), same(text, len, len); }

static int64_t last_changed(const char *text, size_t len)
{
    return other[len - 1] = another(other[len - 1]), same(text, len, len);
}

static int64_t appended(const char *text, size_t len) { return other[len] = 'x', same(text, len, len + 1); }
static int64_t last_conversion(const char *text, size_t len) { return change_conversion(), same(text, len, len); }
static int64_t percents(const char *text, size_t len) { return other[len] = other[len + 1] = '%', same(text, len, len + 2); }

static const struct {
    const char *name;
    int64_t (*call)(const char *, size_t);
} CALLS[] = {
    {"nothing", nothing},
    {"parse_printf_format", parse},
    {"check", check},
    {"types", types_of},
    {"arguments", arguments},
    {"is_canonical", is_canonical},
    {"canonical", canonical},
    {"canonical_length", length},
    {"fits, itself", fits},
    {"fits_fewer, itself", fits_fewer},
    {"fits_fewer, the last directive left out", fits_front},
    {"bounds", bounds},
    {"same, itself", same_itself},
    {"same, first byte changed", first_changed},
    {"same, last byte changed", last_changed},
    {"same, a byte appended", appended},
    {"same, last conversion changed", last_conversion},
    {"same, `%%` appended", percents},
    {"directives", directives},
    {"specifications", specifications},
    {"whole_canonical", whole_canonical},
    {"whole_canonical_length", whole_length},
    {"whole_same, itself", whole_itself},
    {"whole_same, a byte appended", whole_appended},
    {"whole_same, last conversion changed", whole_conversion},
};

int main(int count, char **words)
{
    FILE *file = count == 4 ? fopen(words[3], "rb") : NULL;
    size_t size = file ? fread(texts, 1, sizeof texts, file) : 0, which = 0;
    int64_t sum = 0;
    int round;
    if (size == 0 || size == sizeof texts || texts[size - 1] != 0) return 2;
    while (strcmp(CALLS[which].name, words[1]))
        if (++which == sizeof CALLS / sizeof *CALLS) return 2;
    for (const char *text = texts; text < texts + size; text += strlen(text) + 1) {
        conversions[now] = conversion_of(text, strlen(text));
        fronts[now++] = front_of(text, strlen(text));
    }
    for (round = 0; round < atoi(words[2]); round++) {
        const char *text = texts;
        now = 0;
        while (text < texts + size) {
            size_t len = strlen(text);
            memcpy(other, text, len + 1);
            sum += CALLS[which].call(text, len);
            text += len + 1;
        }
    }
    printf("%lld\n", (long long)sum);
    return 0;
}
