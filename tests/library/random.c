/* Random texts over the letters of formats. The canonical text of one is its own, has the same
 * types, and the C library prints the same by both. Of two with one argument, the C library prints
 * the same where they are the same, and differs for the argument that is given where not. */
#include "fmtcanon.h"
#include <stdio.h>
#include <stdlib.h>
#include <string.h>

enum { LP64 = FMTCANON_LP64, ROOM = 1 << 15, LONGEST = 24 };

static unsigned long long state = 1;

static unsigned pick(unsigned below)
{
    state = state * 6364136223846793005ULL + 1442695040888963407ULL;
    return (unsigned)(state >> 33) % below;
}

static void stop(const char *what, const char *first, const char *second)
{
    fprintf(stderr, "random: %s: %s | %s\n", what, first, second);
    exit(1);
}

static void make(char *text)
{
    static const char letters[] = "%%%%%%%%ddiuoxXcshlljzt-+ #0'.1234567890ab";
    size_t len = pick(LONGEST), k;
    for (k = 0; k < len; k++) text[k] = letters[pick(sizeof letters - 1)];
    text[len] = 0;
}

/* What the C library prints for the one argument. */
static int printed(char *out, const char *format, int type, long number, const char *string)
{
    if (type == FMTCANON_STRING) return snprintf(out, ROOM, format, string);
    if (type == FMTCANON_INT || type == FMTCANON_UINT) return snprintf(out, ROOM, format, (int)number);
    return snprintf(out, ROOM, format, number);
}

static int prints_alike(const char *first, const char *second, int type, long number,
                        const char *string)
{
    static char x[ROOM], y[ROOM];
    int n = printed(x, first, type, number, string);
    return n == printed(y, second, type, number, string) && !memcmp(x, y, (size_t)n);
}

/* How many arguments a text takes that is accepted, with the type of the first; -1 if it isn't. */
static int64_t arguments(const char *text, unsigned char *type)
{
    unsigned char types[LONGEST];
    fmtcanon_error e;
    int64_t n = fmtcanon_types(LP64, text, strlen(text), types, sizeof types, &e);
    if ((fmtcanon_check(text, strlen(text), &e) < 0) != (n < 0)) stop("check", text, "");
    if (n < 0 && e.at > strlen(text)) stop("place", text, "");
    *type = n > 0 ? types[0] : 0;
    return n;
}

static long any_number(void)
{
    return pick(3) ? (long)pick(300) - 150 : (long)((unsigned long)pick(1u << 31) * pick(1u << 31));
}

static void one(const char *text, int64_t count, int type)
{
    static char own[ROOM], again[ROOM];
    unsigned char other;
    fmtcanon_error e;
    int64_t n = fmtcanon_canonical(LP64, text, strlen(text), own, sizeof own, &e);
    if (n < 0 || n >= ROOM) stop("canonical", text, "");
    if (fmtcanon_canonical(LP64, own, (size_t)n, again, sizeof again, &e) != n)
        stop("len", text, own);
    if (memcmp(own, again, (size_t)n)) stop("its own", text, own);
    if (fmtcanon_same(LP64, text, strlen(text), own, (size_t)n, &e) != 1) stop("same", text, own);
    if (arguments(own, &other) != count || other != type) stop("types", text, own);
    if (count <= 1 && !prints_alike(text, own, type, any_number(), "hello")) stop("prints", text, own);
}

static int two(const char *first, const char *second, int type)
{
    char words[ROOM];
    fmtcanon_error e;
    fmtcanon_comparison found;
    int64_t n = fmtcanon_compare(LP64, first, strlen(first), second, strlen(second), words,
                                 sizeof words, &found, &e);
    if (n < 0 || n > ROOM) stop("compare", first, second);
    if (found.verdict == FMTCANON_SAME && !prints_alike(first, second, type, any_number(), "hello"))
        stop("same, but prints", first, second);
    if (found.verdict != FMTCANON_DIFFERENT) return 0;
    if (found.number != 1) stop("one word", first, second);
    if (prints_alike(first, second, type, (long)strtoull(words + 2, NULL, 10), words + 2))
        stop("different, but prints", first, second);
    return 1;
}

/* The same text with one letter put in: often it means the same. */
static void change(char *other, const char *text)
{
    static const char letters[] = "0'-+ #lhji1";
    size_t at = pick((unsigned)strlen(text) + 1);
    memcpy(other, text, at);
    other[at] = letters[pick(sizeof letters - 1)];
    strcpy(other + at + 1, text + at);
}

int main(int argc, char **argv)
{
    unsigned long left = argc > 1 ? strtoul(argv[1], NULL, 10) : 1000000;
    unsigned long accepted = 0, compared = 0, different = 0;
    char text[LONGEST + 1], other[LONGEST + 2], last[LONGEST + 2] = "%d";
    unsigned char type, other_type, last_type = FMTCANON_INT;
    for (; left; left--) {
        int64_t count;
        make(text);
        count = arguments(text, &type);
        if (count < 0) continue;
        accepted++;
        one(text, count, type);
        if (count != 1) continue;
        change(other, text);
        if (arguments(other, &other_type) == 1 && other_type == type) {
            compared++;
            different += (unsigned long)two(text, other, type);
        }
        if (type == last_type) {
            compared++;
            different += (unsigned long)two(last, text, type);
        }
        strcpy(last, text);
        last_type = type;
    }
    printf("%lu accepted, %lu compared, %lu different\n", accepted, compared, different);
    return accepted && different && different < compared ? 0 : 1;
}
