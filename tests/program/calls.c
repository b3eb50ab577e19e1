/* Notes each read and write of the standard streams, with what was asked for and what was moved: a
 * line for each goes to the file that the environment names as CALLS. A read asks for at most as many
 * bytes as the environment has as STEP. It is loaded before the C library, by LD_PRELOAD. */
#define _GNU_SOURCE
#include <fcntl.h>
#include <stdio.h>
#include <stdlib.h>
#include <sys/syscall.h>
#include <sys/uio.h>
#include <unistd.h>

static int number(const char *name, int otherwise)
{
    const char *text = getenv(name);
    return text == NULL ? otherwise : atoi(text);
}

/* The number of a standard stream. A program may read and write copies of them, whose numbers INPUT and OUTPUT are. */
static int standard(int stream)
{
    return stream == number("INPUT", 0) ? 0 : stream == number("OUTPUT", 1) ? 1 : stream;
}

static long noted(const char *call, int stream, size_t asked, long moved)
{
    char line[96];
    const char *name = getenv("CALLS");
    stream = standard(stream);
    int file = stream > 2 || name == NULL ? -1 : (int)syscall(SYS_openat, AT_FDCWD, name, O_WRONLY | O_APPEND | O_CREAT, 0600);
    if (file >= 0) {
        int size = snprintf(line, sizeof line, "%s %d %zu %ld\n", call, stream, asked, moved);
        syscall(SYS_write, file, line, (size_t)size);
        syscall(SYS_close, file);
    }
    return moved;
}

static size_t total(const struct iovec *parts, int count)
{
    size_t sum = 0;
    while (count-- > 0)
        sum += parts[count].iov_len;
    return sum;
}

static size_t at_most_a_step(size_t size)
{
    const char *text = getenv("STEP");
    size_t step = text == NULL ? size : (size_t)atol(text);
    return step < size ? step : size;
}

ssize_t read(int stream, void *bytes, size_t size)
{
    size = standard(stream) == 0 ? at_most_a_step(size) : size;
    return noted("read", stream, size, syscall(SYS_read, stream, bytes, size));
}

ssize_t write(int stream, const void *bytes, size_t size)
{
    return noted("write", stream, size, syscall(SYS_write, stream, bytes, size));
}

ssize_t readv(int stream, const struct iovec *parts, int count)
{
    return noted("read", stream, total(parts, count), syscall(SYS_readv, stream, parts, count));
}

ssize_t writev(int stream, const struct iovec *parts, int count)
{
    return noted("write", stream, total(parts, count), syscall(SYS_writev, stream, parts, count));
}
