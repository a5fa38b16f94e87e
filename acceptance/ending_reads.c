/* Slows and ends reading: preloaded, it lets each call that reads the file READ_FILE return at most
 * READ_STEP bytes, and the call that reads its end fail with the error READ_ERROR, if that is set. */
#define _GNU_SOURCE
#include <errno.h>
#include <stdlib.h>
#include <sys/stat.h>
#include <sys/syscall.h>
#include <unistd.h>

static struct stat file;
static size_t step = (size_t)-1;
static int error;

__attribute__((constructor)) static void begin(void)
{
    const char *path = getenv("READ_FILE"), *bytes = getenv("READ_STEP"), *number = getenv("READ_ERROR");
    if (path == NULL || stat(path, &file) != 0)
        abort();
    step = bytes == NULL ? step : (size_t)atol(bytes);
    error = number == NULL ? 0 : atoi(number);
}

static int is_file(int number)
{
    struct stat found;
    return fstat(number, &found) == 0 && found.st_dev == file.st_dev && found.st_ino == file.st_ino;
}

ssize_t read(int number, void *bytes, size_t size)
{
    if (!is_file(number))
        return syscall(SYS_read, number, bytes, size);
    ssize_t done = syscall(SYS_read, number, bytes, size < step ? size : step);
    if (done == 0 && size > 0 && error != 0) {
        errno = error;
        return -1;
    }
    return done;
}
