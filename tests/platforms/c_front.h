#include <errno.h>
#include <inttypes.h>
#include <limits.h>
#include <signal.h>
#include <stdatomic.h>
#include <stdbool.h>
#include <stddef.h>
#include <stdint.h>
#include <stdio.h>
#include <stdlib.h>
#include <string.h>
#include <time.h>
#include <uchar.h>
#include <wchar.h>
#include <wctype.h>
#define N(a) (sizeof(a) / sizeof((a)[0]))
#define MAX(a, b) ({ __typeof__(a) a_ = (a); __typeof__(b) b_ = (b); a_ > b_ ? a_ : b_; })
typedef __SIZE_TYPE__ own_size;
typedef __PTRDIFF_TYPE__ own_difference;
typedef __INT64_TYPE__ own_int64;
typedef __UINTMAX_TYPE__ own_uintmax;
typedef __UINTPTR_TYPE__ own_pointer;
typedef __WCHAR_TYPE__ own_wide;
typedef unsigned __PTRDIFF_TYPE__ unsigned_difference;
typedef uint64_t own_uint64_t;
typedef size_t own_size_t;
typedef time_t own_time;
enum kinds { A, B };
enum large { C = 0x100000000 };
enum negative { D = -1 };
struct all {
  char c; signed char sc; unsigned char uc; short s; unsigned short us; bool b; unsigned u; long l; unsigned long ul;
  long long ll; unsigned long long ull; float f; double d; long double ld;
  uint16_t u16; uint32_t u32; int64_t i64; uint64_t u64; size_t z; ptrdiff_t difference; time_t time; clock_t clock;
  enum kinds small; enum large large; enum negative negative;
  unsigned b3 : 3; int s3 : 3; unsigned b31 : 31; unsigned long b32 : 32; long l31 : 31; long l32 : 32; long long ll8 : 8;
  unsigned u32bits : 32; unsigned long long b63 : 63, b40 : 40, ull32 : 32; size_t z20 : 20, z32 : 32; long long ll64 : 64;
  enum kinds e3 : 3; bool bool1 : 1;
  struct { time_t when; size_t n; } inner;
  char *p, *q, **pp; size_t *pz; long table[20]; char texts[3][4]; wchar_t *w, wide[4]; char32_t of32[4]; char16_t of16[4];
  FILE *file;
  atomic_bool a_bool;
  atomic_char a_char;
  atomic_schar a_schar;
  atomic_uchar a_uchar;
  atomic_short a_short;
  atomic_ushort a_ushort;
  atomic_int a_int;
  atomic_uint a_uint;
  atomic_long a_long;
  atomic_ulong a_ulong;
  atomic_llong a_llong;
  atomic_ullong a_ullong;
  atomic_wchar_t a_wchar_t;
  atomic_char16_t a_char16_t;
  atomic_char32_t a_char32_t;
  atomic_size_t a_size_t;
  atomic_ptrdiff_t a_ptrdiff_t;
  atomic_intmax_t a_intmax_t;
  atomic_uintmax_t a_uintmax_t;
  atomic_intptr_t a_intptr_t;
  atomic_uintptr_t a_uintptr_t;
  atomic_int_least8_t a_int_least8_t;
  atomic_uint_least8_t a_uint_least8_t;
  atomic_int_fast8_t a_int_fast8_t;
  atomic_uint_fast8_t a_uint_fast8_t;
  atomic_int_least16_t a_int_least16_t;
  atomic_uint_least16_t a_uint_least16_t;
  atomic_int_fast16_t a_int_fast16_t;
  atomic_uint_fast16_t a_uint_fast16_t;
  atomic_int_least32_t a_int_least32_t;
  atomic_uint_least32_t a_uint_least32_t;
  atomic_int_fast32_t a_int_fast32_t;
  atomic_uint_fast32_t a_uint_fast32_t;
  atomic_int_least64_t a_int_least64_t;
  atomic_uint_least64_t a_uint_least64_t;
  atomic_int_fast64_t a_int_fast64_t;
  atomic_uint_fast64_t a_uint_fast64_t;
};
__attribute__((format(gnu_printf, 1, 2))) int say(const char *, ...);
static const char static_text[] = "x";
size_t get(void); size_t (*pointer)(void); own_size own(void); enum kinds small(void);
void f(struct all *v, int i, const char array[4], char unsized[], wchar_t wide_array[8], int counts[4]) {
