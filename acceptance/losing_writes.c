/* Records what the program writes, and cuts its power: preloaded, it ends the process before one of
 * its calls. LOSING_CALL is the number of that call, counted from 1; 0 or none if the process is to
 * run to its end. Of the files below the folder LOSING_FOLDER each call is recorded in the file
 * LOSING_LOG, once it is done:
 *
 *     append PLACE SIZE PATH    SIZE bytes were written at the file's end; they come after the line
 *     write PLACE SIZE PATH     the same anywhere in the file
 *     length SIZE 0 PATH        the file was cut, or made longer by zeros
 *     make 0 0 PATH             the file was made
 *     folder 0 0 PATH           the folder was made
 *     remove 0 0 PATH           its name was removed
 *     rename 0 0 PATH           the file got the name of the next line, `to 0 0 PATH`
 *     sync 0 0 PATH             the file's bytes were synced, or the names of the folder
 *     print 0 SIZE -            SIZE bytes were written to standard output
 *
 * One thread at a time makes such a call, so the record has their order. `losses.py` reads it, and
 * drops what was not synced. */
#define _GNU_SOURCE
#include <dlfcn.h>
#include <errno.h>
#include <fcntl.h>
#include <limits.h>
#include <pthread.h>
#include <stdarg.h>
#include <stdio.h>
#include <stdlib.h>
#include <string.h>
#include <sys/stat.h>
#include <sys/syscall.h>
#include <sys/uio.h>
#include <unistd.h>

#define NEXT(name) ((__typeof__(&name))dlsym(RTLD_NEXT, #name))

static long made;
static pthread_mutex_t lock = PTHREAD_MUTEX_INITIALIZER;

/* Begins a call of which a record is kept. Ends the process if it is the one. */
static void begin_call(void)
{
    const char *call = getenv("LOSING_CALL");
    pthread_mutex_lock(&lock);
    made += 1;
    if (call != NULL && made == atol(call))
        for (;;)
            syscall(SYS_exit_group, 137);
}

/* Ends a call: other threads may make theirs. */
static void end_call(void)
{
    pthread_mutex_unlock(&lock);
}

/* Returns whether the path is below the folder. */
static int is_ours(const char *path)
{
    const char *folder = getenv("LOSING_FOLDER");
    size_t size = folder == NULL ? 0 : strlen(folder);
    return size > 0 && strncmp(path, folder, size) == 0;
}

/* Finds the path of an open file. Returns whether it is below the folder. */
static int path_of(int file, char *path)
{
    char name[64];
    ssize_t length;
    snprintf(name, sizeof name, "/proc/self/fd/%d", file);
    length = readlink(name, path, PATH_MAX - 1);
    path[length < 0 ? 0 : length] = 0;
    return is_ours(path);
}

static void put(int log, const void *bytes, size_t size)
{
    while (size > 0) {
        ssize_t done = syscall(SYS_write, log, bytes, size);
        if (done <= 0)
            abort();
        bytes = (const char *)bytes + done;
        size -= done;
    }
}

static void record(const char *word, long place, const void *bytes, size_t size, const char *path)
{
    const char *name = getenv("LOSING_LOG");
    int kept = errno;
    int log = name == NULL ? -1 : (int)syscall(SYS_open, name, O_WRONLY | O_CREAT | O_APPEND, 0644);
    char line[PATH_MAX + 128];
    if (log >= 0) {
        put(log, line, snprintf(line, sizeof line, "%s %ld %zu %s\n", word, place, size, path));
        put(log, bytes, size);
        syscall(SYS_close, log);
    }
    errno = kept;
}

ssize_t write(int file, const void *bytes, size_t size)
{
    char path[PATH_MAX];
    struct stat found;
    int flags = fcntl(file, F_GETFL);
    int is_append = flags >= 0 && (flags & O_APPEND) != 0;
    int own = path_of(file, path);
    long place;
    ssize_t done;
    if (file != 1 && !own)
        return syscall(SYS_write, file, bytes, size);
    begin_call();
    place = own && is_append && fstat(file, &found) == 0 ? (long)found.st_size : (long)lseek(file, 0, SEEK_CUR);
    done = syscall(SYS_write, file, bytes, size);
    if (done > 0 && file == 1)
        record("print", 0, bytes, done, "-");
    else if (done > 0)
        record(is_append ? "append" : "write", place, bytes, done, path);
    end_call();
    return done;
}

/* The first buffer alone: a write may be short. */
ssize_t writev(int file, const struct iovec *parts, int count_of_parts)
{
    int at = 0;
    while (at < count_of_parts - 1 && parts[at].iov_len == 0)
        at += 1;
    return count_of_parts == 0 ? 0 : write(file, parts[at].iov_base, parts[at].iov_len);
}

static ssize_t write_at(int file, const void *bytes, size_t size, off_t place)
{
    char path[PATH_MAX];
    ssize_t done;
    if (!path_of(file, path))
        return syscall(SYS_pwrite64, file, bytes, size, place);
    begin_call();
    done = syscall(SYS_pwrite64, file, bytes, size, place);
    if (done > 0)
        record("write", place, bytes, done, path);
    end_call();
    return done;
}

ssize_t pwrite(int file, const void *bytes, size_t size, off_t place)
{
    return write_at(file, bytes, size, place);
}

ssize_t pwrite64(int file, const void *bytes, size_t size, off64_t place)
{
    return write_at(file, bytes, size, place);
}

static int cut(int file, off_t size)
{
    char path[PATH_MAX];
    int done;
    if (!path_of(file, path))
        return (int)syscall(SYS_ftruncate, file, size);
    begin_call();
    done = (int)syscall(SYS_ftruncate, file, size);
    if (done == 0)
        record("length", size, "", 0, path);
    end_call();
    return done;
}

int ftruncate(int file, off_t size)
{
    return cut(file, size);
}

int ftruncate64(int file, off64_t size)
{
    return cut(file, size);
}

static int sync_by(long call, int file)
{
    char path[PATH_MAX];
    int done;
    if (!path_of(file, path))
        return (int)syscall(call, file);
    begin_call();
    done = (int)syscall(call, file);
    if (done == 0)
        record("sync", 0, "", 0, path);
    end_call();
    return done;
}

int fsync(int file)
{
    return sync_by(SYS_fsync, file);
}

int fdatasync(int file)
{
    return sync_by(SYS_fdatasync, file);
}

/* Opens a file, and records that it was made or emptied. */
static int opened(int folder, const char *path, int flags, mode_t mode)
{
    char own[PATH_MAX];
    int was, file;
    if ((flags & (O_CREAT | O_TRUNC)) == 0 || !is_ours(path))
        return (int)syscall(SYS_openat, folder, path, flags, mode);
    begin_call();
    was = faccessat(folder, path, F_OK, AT_SYMLINK_NOFOLLOW) == 0;
    file = (int)syscall(SYS_openat, folder, path, flags, mode);
    if (file >= 0) {
        path_of(file, own);
        if (!was)
            record("make", 0, "", 0, own);
        else if ((flags & O_TRUNC) != 0)
            record("length", 0, "", 0, own);
    }
    end_call();
    return file;
}

#define MODE(flags, mode)                                                                          \
    do {                                                                                           \
        va_list rest;                                                                              \
        va_start(rest, flags);                                                                     \
        mode = (flags) & (O_CREAT | O_TMPFILE) ? va_arg(rest, mode_t) : 0;                         \
        va_end(rest);                                                                              \
    } while (0)

int open(const char *path, int flags, ...)
{
    mode_t mode;
    MODE(flags, mode);
    return opened(AT_FDCWD, path, flags, mode);
}

int open64(const char *path, int flags, ...)
{
    mode_t mode;
    MODE(flags, mode);
    return opened(AT_FDCWD, path, flags, mode);
}

int openat(int folder, const char *path, int flags, ...)
{
    mode_t mode;
    MODE(flags, mode);
    return opened(folder, path, flags, mode);
}

int openat64(int folder, const char *path, int flags, ...)
{
    mode_t mode;
    MODE(flags, mode);
    return opened(folder, path, flags, mode);
}

int unlink(const char *path)
{
    int done;
    if (!is_ours(path))
        return NEXT(unlink)(path);
    begin_call();
    done = NEXT(unlink)(path);
    if (done == 0)
        record("remove", 0, "", 0, path);
    end_call();
    return done;
}

int mkdir(const char *path, mode_t mode)
{
    int done;
    if (!is_ours(path))
        return NEXT(mkdir)(path, mode);
    begin_call();
    done = NEXT(mkdir)(path, mode);
    if (done == 0)
        record("folder", 0, "", 0, path);
    end_call();
    return done;
}

int rename(const char *from, const char *to)
{
    int done;
    if (!is_ours(from))
        return NEXT(rename)(from, to);
    begin_call();
    done = NEXT(rename)(from, to);
    if (done == 0) {
        record("rename", 0, "", 0, from);
        record("to", 0, "", 0, to);
    }
    end_call();
    return done;
}
