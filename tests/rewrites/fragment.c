/* The call is in a part of a file, in which printf is a macro. */
#include <stdio.h>
#define printf(...) puts(#__VA_ARGS__)
int main(void)
{
#include "part.inc"
    return 0;
}
