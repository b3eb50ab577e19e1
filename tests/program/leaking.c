/* Replies to records as the program replies to empty ones, and leaks 64 bytes for each, unless its last argument is `none`.
 * A trial that finds leaks has to find this one. */
#include <stdio.h>
#include <stdlib.h>
#include <string.h>

int main(int count, char **words)
{
    int leaks = count < 2 || strcmp(words[count - 1], "none") != 0, byte;
    while ((byte = getchar()) != EOF) {
        char *block;
        if (byte != 0)
            continue;
        block = malloc(64);
        if (block == NULL)
            return 4;
        memset(block, 1, 64);
        fwrite("0 ", 1, 3, stdout);
        if (!leaks)
            free(block);
    }
    return 0;
}
