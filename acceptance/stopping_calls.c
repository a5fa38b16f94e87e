/* Stops the program: preloaded, it ends the process at one of its calls that change a file, or lets
 * that call fail, alone or with each later one. STOPPED_CALL is its number, counted from 1, and
 * STOPPED_WAY how:
 *
 * - `before`: the process ends before the call.
 * - `within`: as `before`, but of a write half the bytes are written.
 * - `failing`: the call and each later one fails with EIO, and the process goes on.
 * - `once`: the call alone fails with EIO. The next ones succeed, as after a write that the system
 *   gave up.
 * - `lost`: as `failing`, but of the file STOPPED_FILE alone, whose calls are counted. When the process
 *   ends, what was written and not flushed is undone in each file whose path begins with STOPPED_LOST, as
 *   if the machine had stopped.
 *
 * At the stop a line is appended to the file STOPPED_LOG: the name of the call, and the path of its
 * file. The calls are those that write, flush, cut, make or remove files; what goes to the standard
 * streams does not count. */
#define _GNU_SOURCE
#include <dlfcn.h>
#include <errno.h>
#include <fcntl.h>
#include <limits.h>
#include <stdarg.h>
#include <stdio.h>
#include <stdlib.h>
#include <string.h>
#include <sys/stat.h>
#include <sys/syscall.h>
#include <unistd.h>

static long made;
static long stopped;
static const char *way = "before";

/* A change that was not flushed: the bytes that were there before, and the length of the file. */
struct change {
    struct change *before;
    char path[PATH_MAX];
    off_t place;
    ssize_t size;
    off_t length;
    char bytes[];
};

static struct change *last;

static void path_of(int file, char *path)
{
    char name[64];
    ssize_t length;
    snprintf(name, sizeof name, "/proc/self/fd/%d", file);
    length = readlink(name, path, PATH_MAX - 1);
    path[length < 0 ? 0 : length] = 0;
}

/* Notes the bytes of a file that are about to change. */
static void note_change(int file, off_t place, size_t size)
{
    const char *lost = getenv("STOPPED_LOST");
    char path[PATH_MAX];
    struct stat found;
    struct change *change;
    path_of(file, path);
    if (lost == NULL || strncmp(path, lost, strlen(lost)) != 0 || fstat(file, &found) != 0)
        return;
    if (place + (off_t)size > found.st_size)
        size = place < found.st_size ? (size_t)(found.st_size - place) : 0;
    change = malloc(sizeof *change + size);
    if (change == NULL)
        abort();
    strcpy(change->path, path);
    change->before = last;
    change->place = place;
    change->length = found.st_size;
    change->size = syscall(SYS_pread64, file, change->bytes, size, place);
    last = change;
}

/* Forgets the changes of a file that was flushed. */
static void forget_changes(int file)
{
    struct change **next = &last;
    char path[PATH_MAX];
    path_of(file, path);
    while (*next != NULL) {
        struct change *change = *next;
        if (strcmp(change->path, path) == 0) {
            *next = change->before;
            free(change);
        } else {
            next = &change->before;
        }
    }
}

/* Undoes the changes that were not flushed, the last one first. */
static void undo_changes(void)
{
    for (; last != NULL; last = last->before) {
        int file = (int)syscall(SYS_open, last->path, O_RDWR);
        if (file < 0)
            continue;
        if (last->size > 0)
            (void)!syscall(SYS_pwrite64, file, last->bytes, last->size, last->place);
        (void)!syscall(SYS_ftruncate, file, last->length);
        syscall(SYS_close, file);
    }
}

/* A program ends by returning from its main function, or by this call. */
__attribute__((destructor)) static void end(void)
{
    undo_changes();
}

void _exit(int status)
{
    undo_changes();
    for (;;)
        syscall(SYS_exit_group, status);
}

/* Returns whether the calls of a file are counted. */
static int is_counted(int file)
{
    const char *own = getenv("STOPPED_FILE");
    char path[PATH_MAX];
    if (own == NULL)
        return 1;
    if (file < 0)
        return 0;
    path_of(file, path);
    return strcmp(path, own) == 0;
}

static void end_process(void)
{
    for (;;)
        syscall(SYS_exit_group, 137);
}

/* Appends the line of a call: of an open file, or else of a path. */
static void note(const char *call, int file, const char *path)
{
    const char *name = getenv("STOPPED_LOG");
    int log = name == NULL ? -1 : (int)syscall(SYS_open, name, O_WRONLY | O_CREAT | O_APPEND, 0644);
    char own[PATH_MAX], line[PATH_MAX + 64];
    if (log < 0)
        return;
    if (file >= 0)
        path_of(file, own);
    snprintf(line, sizeof line, "%s %s\n", call, file >= 0 ? own : path);
    (void)!syscall(SYS_write, log, line, strlen(line));
    syscall(SYS_close, log);
}

/* Returns whether the call of this name fails: that of an open file, or else (-1) of a path. Half
 * of `bytes` is written at `place` if the process ends within a write. */
static int is_write_stopped(const char *call, int file, const char *path, const void *bytes,
                            size_t size, off_t place)
{
    if (stopped == 0) {
        const char *call = getenv("STOPPED_CALL");
        stopped = call == NULL ? -1 : atol(call);
        way = getenv("STOPPED_WAY") == NULL ? way : getenv("STOPPED_WAY");
    }
    if (!is_counted(file))
        return 0;
    made += 1;
    if (stopped < 0 || made < stopped)
        return 0;
    if (made > stopped && strcmp(way, "once") == 0)
        return 0;
    if (made == stopped)
        note(call, file, path);
    if (strcmp(way, "failing") == 0 || strcmp(way, "once") == 0 || strcmp(way, "lost") == 0) {
        errno = EIO;
        return 1;
    }
    if (strcmp(way, "within") == 0 && size > 0)
        (void)!syscall(SYS_pwrite64, file, bytes, size / 2, place);
    end_process();
    return 1;
}

/* Returns whether a call fails that writes no bytes. */
static int is_stopped(const char *call, int file, const char *path)
{
    return is_write_stopped(call, file, path, NULL, 0, 0);
}

#define NEXT(name) ((__typeof__(&name))dlsym(RTLD_NEXT, #name))

ssize_t pwrite(int file, const void *bytes, size_t size, off_t place)
{
    if (is_write_stopped("pwrite", file, NULL, bytes, size, place))
        return -1;
    note_change(file, place, size);
    return NEXT(pwrite)(file, bytes, size, place);
}

ssize_t write(int file, const void *bytes, size_t size)
{
    if (file > 2 && is_stopped("write", file, NULL))
        return -1;
    return syscall(SYS_write, file, bytes, size);
}

int fsync(int file)
{
    if (is_stopped("fsync", file, NULL) || NEXT(fsync)(file) != 0)
        return -1;
    forget_changes(file);
    return 0;
}

int fdatasync(int file)
{
    if (is_stopped("fdatasync", file, NULL) || NEXT(fdatasync)(file) != 0)
        return -1;
    forget_changes(file);
    return 0;
}

int ftruncate(int file, off_t size)
{
    struct stat found;
    if (is_stopped("ftruncate", file, NULL))
        return -1;
    if (fstat(file, &found) == 0)
        note_change(file, size, found.st_size > size ? (size_t)(found.st_size - size) : 0);
    return NEXT(ftruncate)(file, size);
}

int unlink(const char *path)
{
    return is_stopped("unlink", -1, path) ? -1 : NEXT(unlink)(path);
}

int mkdir(const char *path, mode_t mode)
{
    return is_stopped("mkdir", -1, path) ? -1 : NEXT(mkdir)(path, mode);
}

int open(const char *path, int flags, ...)
{
    va_list rest;
    mode_t mode;
    va_start(rest, flags);
    mode = flags & O_CREAT ? va_arg(rest, mode_t) : 0;
    va_end(rest);
    if ((flags & O_CREAT) != 0 && is_stopped("open", -1, path))
        return -1;
    return (int)syscall(SYS_open, path, flags, mode);
}
