#define _GNU_SOURCE
#include <dirent.h>
#include <fcntl.h>
#include <glob.h>
#include <limits.h>
#include <linux/types.h>
#include <netinet/in.h>
#include <poll.h>
#include <pwd.h>
#include <regex.h>
#include <stdio.h>
#include <sys/resource.h>
#include <sys/socket.h>
#include <sys/stat.h>
#include <sys/statfs.h>
#include <sys/statvfs.h>
#include <sys/sysinfo.h>
#include <sys/time.h>
#include <sys/times.h>
#include <sys/timex.h>
#include <sys/types.h>
#include <sys/uio.h>
#include <termios.h>
#include <time.h>
#include <unistd.h>
struct all {
  struct stat stat; struct stat64 stat64; struct statvfs statvfs; struct statvfs64 statvfs64; struct statfs statfs;
  struct statfs64 statfs64; struct timeval timeval; struct timespec timespec; struct timex timex; struct rusage rusage;
  struct rlimit rlimit; glob_t glob; struct dirent dirent; struct flock flock; struct passwd passwd;
  struct sysinfo sysinfo; struct tms tms; struct iovec iovec; struct msghdr msghdr; char *p; FILE *file;
};
__attribute__((format(gnu_printf, 1, 2))) int say(const char *, ...);
void f(struct all *v, int i) {
