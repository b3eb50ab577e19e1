/* Standard streams that fail. Of standard output so many bytes are taken as the environment names
 * as ROOM, at most STEP of them a call, and then each call fails. Of standard input at most STEP
 * bytes are handed out a call, and each call fails once as many are as it names as FEED. They fail with
 * the error number FAULT. It is loaded before the C library, by LD_PRELOAD. */
#define _GNU_SOURCE
#include <errno.h>
#include <stdlib.h>
#include <sys/syscall.h>
#include <sys/uio.h>
#include <unistd.h>

static long number(const char *name, long otherwise)
{
    const char *text = getenv(name);
    return text == NULL ? otherwise : strtol(text, NULL, 10);
}

/* A program may read and write copies of its standard streams, whose numbers INPUT and OUTPUT are. */
static int is_input(int stream) { return stream == number("INPUT", 0); }
static int is_output(int stream) { return stream == number("OUTPUT", 1); }

/* How many of so many bytes the next call may move, where some were moved before; none for all of a
 * stream that doesn't fail. */
static long share(const char *name, long moved, size_t size)
{
    long limit = number(name, -1), step = number("STEP", 1L << 30);
    long most = (long)size < step ? (long)size : step;
    return limit < 0 || most < limit - moved ? most : limit - moved;
}

static long failed(void)
{
    errno = (int)number("FAULT", EIO);
    return -1;
}

ssize_t write(int stream, const void *bytes, size_t size)
{
    static long moved;
    long part = is_output(stream) ? share("ROOM", moved, size) : (long)size;
    if (is_output(stream) && part == 0 && size > 0)
        return failed();
    part = syscall(SYS_write, stream, bytes, (size_t)part);
    if (is_output(stream) && part > 0)
        moved += part;
    return part;
}

ssize_t read(int stream, void *bytes, size_t size)
{
    static long moved;
    long part = is_input(stream) ? share("FEED", moved, size) : (long)size;
    if (is_input(stream) && part == 0 && size > 0)
        return failed();
    part = syscall(SYS_read, stream, bytes, (size_t)part);
    if (is_input(stream) && part > 0)
        moved += part;
    return part;
}

/* Of several parts the first that isn't empty is moved. */
static const struct iovec *first(const struct iovec *parts, int count)
{
    while (count > 1 && parts->iov_len == 0)
        parts++, count--;
    return parts;
}

ssize_t writev(int stream, const struct iovec *parts, int count)
{
    const struct iovec *part = first(parts, count);
    return count > 0 ? write(stream, part->iov_base, part->iov_len) : 0;
}

ssize_t readv(int stream, const struct iovec *parts, int count)
{
    const struct iovec *part = first(parts, count);
    return count > 0 ? read(stream, part->iov_base, part->iov_len) : 0;
}
