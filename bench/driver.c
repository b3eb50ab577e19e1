/* Makes one call many times, so that its instructions can be counted from outside.
 *
 *   driver CALL REPEATS formats FILE                 on each text of a file in which a zero byte ends each text
 *   driver CALL REPEATS pair FIRST SECOND            on FIRST, beside SECOND where the call takes two texts
 *   driver CALL REPEATS grown HEAD UNIT TAIL BYTES   on HEAD, UNIT over and over, and TAIL, of about so many bytes
 *
 * It ends with 0 where each call gave what the first one on the same text gave. */
#include <printf.h>
#include <stdbool.h>
#include <stdint.h>
#include <stdio.h>
#include <stdlib.h>
#include <string.h>

bool bench_check(const char *text, size_t len);
uint64_t bench_pieces(const char *text, size_t len);
uint64_t bench_signature(const char *text, size_t len);
uint64_t bench_arguments(const char *text, size_t len);
bool bench_fits(const char *first, size_t first_len, const char *second, size_t second_len);
uint64_t bench_canonical(const char *text, size_t len);
bool bench_is_canonical(const char *text, size_t len);
uint64_t bench_canonical_len(const char *text, size_t len);
bool bench_same_text(const char *first, size_t first_len, const char *second, size_t second_len);
bool bench_same_stream(const char *first, size_t first_len, const char *second, size_t second_len);
uint64_t bench_compare(const char *first, size_t first_len, const char *second, size_t second_len);
uint64_t bench_whole_canonical(const char *text, size_t len);
bool bench_whole_is_canonical(const char *text, size_t len);
uint64_t bench_whole_canonical_len(const char *text, size_t len);
bool bench_whole_same_text(const char *first, size_t first_len, const char *second, size_t second_len);
uint64_t bench_whole_compare(const char *first, size_t first_len, const char *second, size_t second_len);
uint64_t bench_scanner(const char *text, size_t len);
bool bench_render_two(const char *text, size_t len, int number, const char *string, size_t string_len,
                      char *out, size_t room);
bool bench_render_five(const char *text, size_t len, int number, int64_t wide, uint32_t positive,
                       const char *string, size_t string_len, int byte, char *out, size_t room);

static const char *const FORMAT_OF_TWO = "text %d of %s";
static const char *const FORMAT_OF_FIVE = "%5d|%-8ld|%#x|%.3s|%c";
static char printed[100];

static uint64_t call_check(const char *text, size_t len) { return bench_check(text, len); }
static uint64_t call_is_canonical(const char *text, size_t len) { return bench_is_canonical(text, len); }

static uint64_t call_whole_is_canonical(const char *text, size_t len) { return bench_whole_is_canonical(text, len); }

typedef bool same_call(const char *first, size_t first_len, const char *second, size_t second_len);
typedef uint64_t compare_call(const char *first, size_t first_len, const char *second, size_t second_len);

/* The text beside itself, and beside one that differs at once. */
static uint64_t call_fits(const char *text, size_t len) { return bench_fits(text, len, text, len); }
static uint64_t call_same(const char *text, size_t len) { return bench_same_text(text, len, text, len); }
static uint64_t call_same_stream(const char *text, size_t len) { return bench_same_stream(text, len, text, len); }
static uint64_t call_other(const char *text, size_t len) { return bench_same_text(text, len, "\t", 1); }
static uint64_t call_compare(const char *text, size_t len) { return bench_compare(text, len, text, len); }
static uint64_t call_whole_same(const char *text, size_t len) { return bench_whole_same_text(text, len, text, len); }
static uint64_t call_whole_other(const char *text, size_t len) { return bench_whole_same_text(text, len, "\t", 1); }
static uint64_t call_whole_compare(const char *text, size_t len) { return bench_whole_compare(text, len, text, len); }

/* The text beside the one before it. */
static inline uint64_t with_before(same_call *same, const char *text, size_t len) {
    static const char *before = "";
    static size_t before_len = 0;
    bool is_same = same(before, before_len, text, len);
    before = text, before_len = len;
    return is_same;
}

static uint64_t call_before(const char *text, size_t len) { return with_before(bench_same_text, text, len); }
static uint64_t call_whole_before(const char *text, size_t len) { return with_before(bench_whole_same_text, text, len); }

/* The second text of a pair. */
static const char *second = "";
static size_t second_len = 0;

static uint64_t call_same_pair(const char *text, size_t len) { return bench_same_text(text, len, second, second_len); }
static uint64_t call_compare_pair(const char *text, size_t len) { return bench_compare(text, len, second, second_len); }

/* The text with a tab at its end; what the copy costs is counted alone, too. There is room for every text. */
static char *longer;

static uint64_t call_tab(const char *text, size_t len) {
    memcpy(longer, text, len);
    longer[len] = '\t';
    return len + 1;
}

static inline uint64_t with_tab(compare_call *compare, const char *text, size_t len) {
    size_t longer_len = call_tab(text, len);
    return compare(text, len, longer, longer_len);
}

static uint64_t call_compare_tab(const char *text, size_t len) { return with_tab(bench_compare, text, len); }
static uint64_t call_whole_compare_tab(const char *text, size_t len) { return with_tab(bench_whole_compare, text, len); }

static uint64_t call_nothing(const char *text, size_t len) { return text[0] + len; }

static uint64_t call_parse(const char *text, size_t len) {
    static int types[200];
    (void)len;
    return parse_printf_format(text, sizeof types / sizeof types[0], types);
}

static uint64_t call_parse_twice(const char *text, size_t len) { return call_parse(text, len) + call_parse(text, len); }

static uint64_t call_render_two(const char *text, size_t len) {
    (void)text, (void)len;
    return bench_render_two(FORMAT_OF_TWO, strlen(FORMAT_OF_TWO), 42, "abcdef", 6, printed, sizeof printed);
}

static uint64_t call_snprintf_two(const char *text, size_t len) {
    (void)text, (void)len;
    return snprintf(printed, sizeof printed, FORMAT_OF_TWO, 42, "abcdef");
}

static uint64_t call_render_five(const char *text, size_t len) {
    (void)text, (void)len;
    return bench_render_five(FORMAT_OF_FIVE, strlen(FORMAT_OF_FIVE), 42, 42, 48879, "abcdef", 6, 33, printed,
                             sizeof printed);
}

static uint64_t call_snprintf_five(const char *text, size_t len) {
    (void)text, (void)len;
    return snprintf(printed, sizeof printed, FORMAT_OF_FIVE, 42, 42L, 48879U, "abcdef", 33);
}

static const struct {
    const char *name;
    uint64_t (*call)(const char *text, size_t len);
} CALLS[] = {
    {"nothing", call_nothing},
    {"check", call_check},
    {"Pieces", bench_pieces},
    {"signature", bench_signature},
    {"arguments", bench_arguments},
    {"fits", call_fits},
    {"canonical", bench_canonical},
    {"is_canonical", call_is_canonical},
    {"canonical_len", bench_canonical_len},
    {"same_text", call_same},
    {"same_stream", call_same_stream},
    {"same_text, differs at once", call_other},
    {"same_text, unrelated", call_before},
    {"same_text of a pair", call_same_pair},
    {"compare", call_compare},
    {"compare, a tab more", call_compare_tab},
    {"a tab more", call_tab},
    {"compare of a pair", call_compare_pair},
    {"whole canonical", bench_whole_canonical},
    {"whole is_canonical", call_whole_is_canonical},
    {"whole canonical_len", bench_whole_canonical_len},
    {"whole same_text", call_whole_same},
    {"whole same_text, differs at once", call_whole_other},
    {"whole same_text, unrelated", call_whole_before},
    {"whole compare", call_whole_compare},
    {"whole compare, a tab more", call_whole_compare_tab},
    {"parse_printf_format twice", call_parse_twice},
    {"Scanner", bench_scanner},
    {"parse_printf_format", call_parse},
    {"render of two", call_render_two},
    {"snprintf of two", call_snprintf_two},
    {"render of five", call_render_five},
    {"snprintf of five", call_snprintf_five},
};

static void stop(const char *why) {
    fprintf(stderr, "driver: %s\n", why);
    exit(2);
}

/* All bytes of a file, which ends with a zero byte. */
static char *read_file(const char *name, size_t *len) {
    FILE *file = fopen(name, "rb");
    if (file == NULL || fseek(file, 0, SEEK_END) != 0) stop("no such file");
    *len = (size_t)ftell(file);
    rewind(file);
    char *bytes = malloc(*len);
    if (bytes == NULL || fread(bytes, 1, *len, file) != *len) stop("the file can't be read");
    fclose(file);
    if (*len == 0 || bytes[*len - 1] != 0) stop("the file doesn't end with a zero byte");
    return bytes;
}

static char *grow(const char *head, const char *unit, const char *tail, size_t wanted, size_t *len) {
    size_t repeats = (wanted - strlen(head) - strlen(tail)) / strlen(unit);
    char *bytes = malloc(wanted + 1);
    if (bytes == NULL) stop("out of memory");
    char *end = stpcpy(bytes, head);
    for (size_t i = 0; i < repeats; i++) end = stpcpy(end, unit);
    end = stpcpy(end, tail);
    *len = (size_t)(end - bytes) + 1;
    return bytes;
}

int main(int argc, char **argv) {
    size_t number = 0, total = 0;
    char *bytes = NULL;
    if (argc == 5 && strcmp(argv[3], "formats") == 0) {
        bytes = read_file(argv[4], &total);
    } else if (argc == 6 && strcmp(argv[3], "pair") == 0) {
        bytes = argv[4], total = strlen(argv[4]) + 1;
        second = argv[5], second_len = strlen(argv[5]);
    } else if (argc == 8 && strcmp(argv[3], "grown") == 0) {
        bytes = grow(argv[4], argv[5], argv[6], strtoul(argv[7], NULL, 10), &total);
    } else {
        stop("wrong arguments");
    }
    /* A text's NUL leaves room for the tab. */
    longer = malloc(total);
    if (longer == NULL) stop("out of memory");
    while (number < sizeof CALLS / sizeof CALLS[0] && strcmp(CALLS[number].name, argv[1]) != 0) number++;
    if (number == sizeof CALLS / sizeof CALLS[0]) stop("no such call");
    uint64_t (*call)(const char *, size_t) = CALLS[number].call;
    long repeats = strtol(argv[2], NULL, 10);
    uint64_t first = 0;
    for (long i = 0; i < repeats; i++) {
        uint64_t sum = 0;
        for (size_t at = 0, len; at < total; at += len + 1) {
            len = strlen(bytes + at);
            sum += call(bytes + at, len);
        }
        if (i == 0) first = sum;
        if (sum != first) return 1;
    }
    printf("%llu\n", (unsigned long long)first);
    return 0;
}
