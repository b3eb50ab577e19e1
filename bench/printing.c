/* Prints one format many times, so that the instructions of a call can be counted from outside.
 *
 *   printing CALL NUMBER ROUNDS       CALL is fmtcanon_render or snprintf; formats are numbered from 0
 *
 * Prints the sum of what the calls return. */
#include <fmtcanon.h>
#include <stdio.h>
#include <stdlib.h>
#include <string.h>

/* Each takes an int and a string. */
static const char *const FORMATS[] = {"%d %s", "Total: %5d of %-8s.\n", "%300d %s"};

int main(int count, char **words)
{
    static char out[1024];
    fmtcanon_argument args[2] = {{FMTCANON_INT, 12345, NULL, 0}, {FMTCANON_STRING, 0, "name", 4}};
    size_t number = count == 4 ? strtoul(words[2], NULL, 10) : sizeof FORMATS;
    int64_t sum = 0;
    if (number >= sizeof FORMATS / sizeof *FORMATS) return 2;
    const char *format = FORMATS[number];
    size_t len = strlen(format);
    int rounds = atoi(words[3]), ours = strcmp(words[1], "fmtcanon_render") == 0;
    if (!ours && strcmp(words[1], "snprintf")) return 2;
    for (int round = 0; round < rounds; round++)
        sum += ours ? fmtcanon_render(FMTCANON_LP64, format, len, args, 2, out, sizeof out, NULL)
                    : snprintf(out, sizeof out, format, 12345, "name");
    printf("%lld\n", (long long)sum);
    return 0;
}
