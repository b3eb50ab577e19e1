/* Makes one call on each format of a file, each ended by a zero byte, round after round for at least
 * half a processor second, and writes how many such calls take one processor second.
 *
 *   calls CALL FILE            a call of libfmtcanon in LP64, or parse_printf_format
 *   calls process FILE WORD..  the words as a process, with the format after them
 *
 * The time of a process is its own and that of this program. */
#define _GNU_SOURCE
#include "fmtcanon.h"
#include <fcntl.h>
#include <printf.h>
#include <spawn.h>
#include <stdio.h>
#include <stdlib.h>
#include <string.h>
#include <sys/resource.h>
#include <sys/wait.h>

enum { ROOM = 1 << 20, MOST = 1 << 16, LP64 = FMTCANON_LP64 };

static char whole[ROOM], out[ROOM];
static const char *formats[MOST];
static size_t lens[MOST], count;
static char **words;
static int word_count;
static fmtcanon_error error;

static void stop(const char *what)
{
    fprintf(stderr, "calls: %s\n", what);
    exit(1);
}

static void read_all(const char *path)
{
    FILE *file = fopen(path, "rb");
    size_t size = file ? fread(whole, 1, ROOM, file) : 0, at = 0;
    if (!size || size == ROOM || whole[size - 1]) stop("no such file, or one too long");
    for (; at < size && count < MOST; at += lens[count++] + 1) {
        formats[count] = whole + at;
        lens[count] = strlen(whole + at);
    }
    fclose(file);
}

static int64_t check(const char *f, size_t n) { return fmtcanon_check(f, n, &error); }

static int64_t canonical(const char *f, size_t n)
{
    return fmtcanon_canonical(LP64, f, n, out, sizeof out, &error);
}

static int64_t is_canonical(const char *f, size_t n)
{
    return fmtcanon_is_canonical(LP64, f, n, &error);
}

static int64_t types(const char *f, size_t n)
{
    return fmtcanon_types(LP64, f, n, (unsigned char *)out, sizeof out, &error);
}

static int64_t same(const char *f, size_t n) { return fmtcanon_same(LP64, f, n, f, n, &error); }

static int64_t same_models(const char *f, size_t n)
{
    return fmtcanon_same_models(f, n, f, n, &error);
}

static int64_t compare(const char *f, size_t n)
{
    fmtcanon_comparison found;
    return fmtcanon_compare(LP64, f, n, f, n, out, sizeof out, &found, &error);
}

static int64_t whole_canonical(const char *f, size_t n)
{
    return fmtcanon_whole_canonical(LP64, f, n, out, sizeof out, &error);
}

static int64_t whole_same(const char *f, size_t n) { return fmtcanon_whole_same(LP64, f, n, f, n, &error); }

static int64_t whole_same_models(const char *f, size_t n)
{
    return fmtcanon_whole_same_models(f, n, f, n, &error);
}

static int64_t whole_compare(const char *f, size_t n)
{
    fmtcanon_comparison found;
    return fmtcanon_whole_compare(LP64, f, n, f, n, out, sizeof out, &found, &error);
}

static int64_t parse(const char *f, size_t n)
{
    static int found[1000];
    (void)n;
    return (int64_t)parse_printf_format(f, 1000, found);
}

static int64_t process(const char *f, size_t n)
{
    static char *const environment[] = {NULL};
    static posix_spawn_file_actions_t actions;
    static int is_ready;
    int status;
    pid_t child;
    (void)n;
    if (!is_ready) {
        posix_spawn_file_actions_init(&actions);
        posix_spawn_file_actions_addopen(&actions, 1, "/dev/null", O_WRONLY, 0);
        posix_spawn_file_actions_addopen(&actions, 2, "/dev/null", O_WRONLY, 0);
        is_ready = 1;
    }
    words[word_count] = (char *)f;
    if (posix_spawn(&child, words[0], &actions, NULL, words, environment)) stop("no such program");
    if (waitpid(child, &status, 0) != child || !WIFEXITED(status)) stop("a process failed");
    return WEXITSTATUS(status) == 2 ? -1 : WEXITSTATUS(status);
}

static const struct {
    const char *name;
    int64_t (*call)(const char *, size_t);
} CALLS[] = {
    {"check", check},     {"is_canonical", is_canonical}, {"canonical", canonical},
    {"types", types},     {"same", same},                 {"same_models", same_models},
    {"compare", compare}, {"whole_canonical", whole_canonical}, {"whole_same", whole_same},
    {"whole_same_models", whole_same_models}, {"whole_compare", whole_compare},
    {"parse_printf_format", parse}, {"process", process},
};

static double seconds_of(int who)
{
    struct rusage usage;
    getrusage(who, &usage);
    return (double)(usage.ru_utime.tv_sec + usage.ru_stime.tv_sec)
           + (double)(usage.ru_utime.tv_usec + usage.ru_stime.tv_usec) / 1e6;
}

static double seconds(void) { return seconds_of(RUSAGE_SELF) + seconds_of(RUSAGE_CHILDREN); }

int main(int argc, char **argv)
{
    size_t k, i, calls = 0;
    double from, until;
    if (argc < 3) return 2;
    read_all(argv[2]);
    words = calloc((size_t)argc, sizeof *words);
    if (!words) stop("out of memory");
    for (word_count = 0; word_count < argc - 3; word_count++) words[word_count] = argv[word_count + 3];
    for (k = 0; k < sizeof CALLS / sizeof *CALLS && strcmp(CALLS[k].name, argv[1]); k++) {}
    if (k == sizeof CALLS / sizeof *CALLS) stop("no such call");
    if (!word_count && CALLS[k].call == process) stop("no program");
    from = until = seconds();
    for (i = 0; until - from < 0.5; i = (i + 1) % count) {
        if (CALLS[k].call(formats[i], lens[i]) < 0) stop("a format is refused");
        /* Asking for the time costs more than a call. */
        if (++calls % count == 0 || CALLS[k].call == process) until = seconds();
    }
    printf("%.0f\n", (double)calls / (until - from));
    return 0;
}
