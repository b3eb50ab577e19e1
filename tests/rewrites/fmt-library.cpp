/* A function of another library is called sprintf. */
#include <fmt/printf.h>
#include <stdio.h>
int main() { puts(fmt::sprintf("%s", "%i\n").c_str()); return 0; }
