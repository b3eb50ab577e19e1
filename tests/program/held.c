/* Runs a program, and writes the most memory that it held, in KiB, to FILE:
 *
 *   held FILE PROGRAM WORD ..
 *
 * It ends as the program does. The system counts what the parent of a program held when it started the program, so
 * the parent has to be small. Random addresses make the count differ by up to 300 KiB from run to run, so there are
 * none where the system allows that. */
#include <stdio.h>
#include <sys/personality.h>
#include <sys/resource.h>
#include <sys/wait.h>
#include <unistd.h>

int main(int count, char **words)
{
    struct rusage used;
    FILE *file;
    int status;
    pid_t child = count < 3 ? -1 : fork();
    if (child == 0) {
        personality(ADDR_NO_RANDOMIZE);
        execv(words[2], words + 2);
        _exit(127);
    }
    if (child < 0 || wait4(child, &status, 0, &used) != child || (file = fopen(words[1], "w")) == NULL)
        return 126;
    fprintf(file, "%ld\n", used.ru_maxrss);
    return fclose(file) == 0 && WIFEXITED(status) ? WEXITSTATUS(status) : 125;
}
