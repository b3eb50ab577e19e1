/* Prints a number and a name by the format that it is given, if that takes these arguments, and by its own otherwise.
 * This line compiles it:
 *
 *     cc -std=c99 -Wformat=2 -o outside outside.c $(pkg-config --cflags --libs fmtcanon)
 */
#include <fmtcanon.h>
#include <stdio.h>

int main(int argc, char **argv)
{
    const char *given = argc > 1 ? argv[1] : NULL;
    printf(fmtcanon_fmtcheck(given, "%d messages for %s"), 3, "Ann");
    puts("");
    return 0;
}
