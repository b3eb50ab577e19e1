/* Calls of all sorts, as in a file that is also for _WIN32. The compilers of more_check.py say what is wrong with them on
   each platform. */
#include <limits.h>
#include <stdio.h>
#include <stdlib.h>
#include <string.h>
#include <stdint.h>
#include <inttypes.h>
#include <stddef.h>
#include <stdbool.h>
#include <time.h>
#include <wchar.h>
#include <errno.h>
#include <err.h>
#include <unistd.h>
#include <sys/types.h>
#include <sys/stat.h>
#include <sys/time.h>
#include <sys/resource.h>
#include <sys/socket.h>
#define N(a) (sizeof(a) / sizeof((a)[0]))
#define MAX(a, b) ({ __typeof__(a) a_ = (a); __typeof__(b) b_ = (b); a_ > b_ ? a_ : b_; })
#define LOG(f, ...) fprintf(stderr, "log: " f "\n", ##__VA_ARGS__)
enum small { A, B };
enum large { C = 0x100000000 };
typedef uint64_t mine; typedef size_t count;
struct s { unsigned b3 : 3; unsigned b31 : 31; unsigned b32 : 32; uint64_t b40 : 40; char c; short h; bool t; long l; count n; off_t o; struct { time_t when; } in; uint8_t u8; uint16_t u16; ptrdiff_t *d; };
void die(int n, const char *f, ...) __attribute__((format(printf, 2, 3)));
static size_t get(void); static size_t (*pointer)(void); static int64_t i64(void);
extern char buffer[100]; extern long table[20];
void f(struct s *p, struct stat *st, struct rusage *ru, struct timeval *tv, struct timespec *ts, int n, char *q, wchar_t *wide, enum small es, enum large el, mine m) {
  printf("%lu\n", sizeof(int));
  printf("%lu\n", N(table));
  printf("%d\n", (int) N(table));
  printf("%lu\n", sizeof(int) * n);
  printf("%lu\n", strlen(q) + 1);
  printf("%ld\n", q - buffer);
  printf("%ld\n", (q - buffer) / 2);
  printf("%ld\n", &table[3] - table);
  printf("%lu\n", get());
  printf("%lu\n", pointer());
  printf("%ld\n", i64());
  printf("%lld\n", (long long) i64());
  printf("%lu\n", p->n);
  printf("%lu\n", n ? p->n : 0);
  printf("%lu\n", n ? 1ul : p->n);
  printf("%ld\n", p->o);
  printf("%ld\n", p->in.when);
  printf("%ld\n", p->in.when - n);
  printf("%lu\n", (unsigned long) p->in.when);
  printf("%ld\n", *p->d);
  printf("%ld\n", p->d[n] + p->l);
  printf("%u %u %u\n", p->b3, p->b31, p->b32);
  printf("%lu\n", (p->b40));
  printf("%d %d %d %hhu %hu\n", p->c, p->h, p->t, p->u8, p->u16);
  printf("%d %u %lx\n", es, A, C);
  printf("%lu %lu\n", el, (unsigned long) el);
  printf("%lu %" PRIu64 " %" PRIx64 "\n", m, m, m);
  printf("%lx %llx\n", m >> 3, m & 0xff);
  printf("%ld\n", 1l << 40);
  printf("%lld\n", 1ll << 40);
  printf("%d\n", 4000000000);
  printf("%ld\n", 4000000000);
  printf("%ld\n", INT64_C(5));
  printf("%lu\n", UINT64_MAX);
  printf("%lu\n", SIZE_MAX);
  printf("%ld\n", INT64_MAX - 1);
  printf("%lu\n", ~0ul);
  printf("%ld %ld %lu %lu\n", st->st_size, st->st_mtime, st->st_ino, st->st_dev);
  printf("%lu %d %u %u %ld\n", st->st_nlink, st->st_mode, st->st_uid, st->st_gid, st->st_blocks);
  printf("%ld %ld %ld\n", ru->ru_maxrss, ru->ru_utime.tv_sec, ru->ru_utime.tv_usec);
  printf("%ld.%06ld %ld.%09ld\n", tv->tv_sec, tv->tv_usec, ts->tv_sec, ts->tv_nsec);
  printf("%ld %d\n", time(NULL), getpid());
  printf("%zd %zu %td %jd\n", read(0, q, 1), strlen(q), q - buffer, (intmax_t) p->o);
  printf("%ld %ld\n", read(0, q, 1), write(1, q, 1));
  printf("%*lu %.*s\n", n, strlen(q), (int) strlen(q), q);
  printf("%*d\n", strlen(q), n);
  printf("%-*.*lx\n", n, n, sizeof n);
  printf("%" PRIdPTR " %ld\n", (intptr_t) q, (intptr_t) q);
  printf("%" PRIuMAX " %lu\n", (uintmax_t) n, (uintmax_t) n);
  printf("%" PRIdFAST32 " %ld\n", (int_fast32_t) n, (int_fast32_t) n);
  printf("%" PRId32 " %d %ld\n", (int32_t) n, (int32_t) n, (int32_t) n);
  printf("%lu %lu\n", strtoul(q, 0, 0), strtoull(q, 0, 0));
  printf("%ld\n", labs(p->l) + atol(q));
  printf("%lu\n", MAX(p->n, sizeof n));
  printf("%ld\n", (n, p->d[0]));
  printf("%lu\n", ~p->n); printf("%lu\n", -p->n); printf("%ld\n", !p->n);
  printf("%lu\n", p->n++); printf("%lu\n", p->n += 2); printf("%lu\n", p->n = n);
  printf("%s%c%5ld%%\n", q, n, clock());
  printf(n ? "a %lu\n" : "%zu\n", p->n);
  printf(("%lu" "\n"), p->n);
  LOG("%lu of %lu", p->n, p->l);
  LOG("%s", strerror(errno));
  die(1, "%lu %s", p->n, q);
  err(1, "%lu", p->n);
  snprintf(buffer, sizeof buffer, "%ld", (long) (q - buffer));
  fprintf(stderr, "%lu\n", offsetof(struct s, l));
  dprintf(1, "%lu\n", (count) n);
  printf("%llu %lld\n", p->n, p->o);
  printf("%u %d\n", (socklen_t) n, (ssize_t) n);
  printf("%lu\n", n > 0 ? strlen(q) : (unsigned) n);
  printf("%p %ld %lu\n", q, (long) q, (uintptr_t) q);
  printf("%f %ld\n", 1.0 * p->n, p->l);
  static const char format[] = "%lu\n"; printf(format, p->n);
  printf("%s %s %p %f %Lf\n", q, st, st, n, 1.0);
  printf("%d %s\n", n);
  printf("%lu %m %lu\n", p->n, p->l);
  printf("%lc %lc %ls\n", (wchar_t) n, (wint_t) n, wide);
  printf("%ld %lu\n", LONG_MAX, ULONG_MAX);
}
