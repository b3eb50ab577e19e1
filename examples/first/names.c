#include <stdio.h>
#include <string.h>
#include <time.h>
void f(const char *name, time_t when) {
  printf("%lu bytes\n", strlen(name));
  printf("%d: %ld\n", 1, when);
}
