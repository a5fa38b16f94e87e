/* Lets the moments that the program waits pass at once: preloaded, it replaces nanosleep. A byte is
 * appended to the file MOMENTS_LOG for each moment. After MOMENTS_BUSY of them the file
 * MOMENTS_FILE is removed, as if another program had ended its work. By the clock each moment takes
 * MOMENTS_SECONDS, and each read of a part of a file MOMENTS_READ_SECONDS. Such a read gives at most
 * MOMENTS_MOST bytes.
 *
 * Before read number MOMENTS_READ of a part of a file another program changes the catalogue
 * MOMENTS_CHANGED and its log. Each gets the bytes of the file whose name has .next at its end; that
 * one is removed. If there is one whose name ends in -wal.gone, the log is removed. */
#define _GNU_SOURCE
#include <fcntl.h>
#include <stdio.h>
#include <stdlib.h>
#include <sys/syscall.h>
#include <time.h>
#include <unistd.h>

static long passed, reads;

static long number(const char *name)
{
    const char *text = getenv(name);
    return text == NULL ? -1 : atol(text);
}

int nanosleep(const struct timespec *asked, struct timespec *left)
{
    const char *path = getenv("MOMENTS_LOG");
    int log = path == NULL ? -1 : (int)syscall(SYS_open, path, O_WRONLY | O_CREAT | O_APPEND, 0644);
    (void)asked;
    (void)left;
    if (log >= 0) {
        (void)!syscall(SYS_write, log, "x", 1);
        syscall(SYS_close, log);
    }
    passed += 1;
    if (passed == number("MOMENTS_BUSY") && getenv("MOMENTS_FILE") != NULL)
        syscall(SYS_unlink, getenv("MOMENTS_FILE"));
    return 0;
}

int clock_gettime(clockid_t clock, struct timespec *time)
{
    long each = number("MOMENTS_SECONDS"), reading = number("MOMENTS_READ_SECONDS");
    int failed = (int)syscall(SYS_clock_gettime, clock, time);
    if (failed == 0 && each > 0)
        time->tv_sec += each * passed;
    if (failed == 0 && reading > 0)
        time->tv_sec += reading * reads;
    return failed;
}

static void change(const char *catalogue, const char *end)
{
    char path[4096], next[4096], bytes[65536];
    long count;
    int from, to;
    snprintf(path, sizeof path, "%s%s", catalogue, end);
    snprintf(next, sizeof next, "%s%s.next", catalogue, end);
    from = (int)syscall(SYS_open, next, O_RDONLY, 0);
    if (from < 0)
        return;
    to = (int)syscall(SYS_open, path, O_WRONLY | O_CREAT | O_TRUNC, 0644);
    while ((count = syscall(SYS_read, from, bytes, sizeof bytes)) > 0)
        (void)!syscall(SYS_write, to, bytes, count);
    syscall(SYS_close, from);
    syscall(SYS_close, to);
    syscall(SYS_unlink, next);
}

static void remove_log(const char *catalogue)
{
    char path[4096], gone[4096];
    snprintf(path, sizeof path, "%s-wal", catalogue);
    snprintf(gone, sizeof gone, "%s-wal.gone", catalogue);
    if (syscall(SYS_unlink, gone) == 0)
        syscall(SYS_unlink, path);
}

ssize_t pread(int file, void *bytes, size_t size, off_t place)
{
    long most = number("MOMENTS_MOST");
    const char *catalogue = getenv("MOMENTS_CHANGED");
    reads += 1;
    if (reads == number("MOMENTS_READ") && catalogue != NULL) {
        change(catalogue, "");
        change(catalogue, "-wal");
        remove_log(catalogue);
    }
    return syscall(SYS_pread64, file, bytes, most >= 0 && size > (size_t)most ? (size_t)most : size, place);
}
