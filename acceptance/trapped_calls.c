/* Lets calls fail that the program makes below a folder: preloaded, it counts the calls that look for,
 * make and remove files and folders there, and those that close a file that was written whole. The
 * first one is call 0. TRAPPED_FOLDER is the folder, and TRAPPED_HOW has options with `;` between them:
 *
 * - `fails:N`: the calls after N of them fail with EIO, and with 0 the folder can't be listed either.
 * - `once:N`: the call after N of them fails with EIO, and no other.
 * - `link:PATH`: before that call somebody puts a link at this path below the folder, and it does not fail.
 *   A file that is there goes first; a folder that is there is moved, and the link leads to it.
 * - `rooms:N,N..`: the files that are made take these numbers of bytes, the last one is that of all later
 *   files, and then no more (ENOSPC). A write takes two bytes at most, and the first one of each file is
 *   interrupted (EINTR).
 * - `interrupts:N`: as many first writes of each file are.
 *
 * A close that is to fail returns -1, and the file is closed. If TRAPPED_CHANGE is `FROM=TO`, the bytes of
 * the file FROM are written over those of TO before the first write to standard output. Each call is a line
 * of the file TRAPPED_LOG, with its path below the folder; so is each file that was made, written or closed. */
#define _GNU_SOURCE
#include <dirent.h>
#include <dlfcn.h>
#include <errno.h>
#include <fcntl.h>
#include <limits.h>
#include <pthread.h>
#include <stdarg.h>
#include <stdio.h>
#include <stdlib.h>
#include <string.h>
#include <sys/stat.h>
#include <sys/syscall.h>
#include <unistd.h>

#define NEXT(name) ((__typeof__(&name))dlsym(RTLD_NEXT, #name))
#define FILES 1024

struct made {
    int is_made;
    int has_failed;
    long interrupts;
    long room;
    char path[PATH_MAX];
};

static pthread_mutex_t lock = PTHREAD_MUTEX_INITIALIZER;
static struct made files[FILES];
static const char *folder;
static const char *link_path;
static const char *rooms;
static long calls;
static long fails = -1;
static long once = -1;
static long interrupts = 1;
static int log_file = -1;

static void read_option(char *option)
{
    char *value = strchr(option, ':');
    if (value == NULL)
        return;
    *value++ = 0;
    if (strcmp(option, "fails") == 0)
        fails = atol(value);
    if (strcmp(option, "once") == 0)
        once = atol(value);
    if (strcmp(option, "link") == 0)
        link_path = value;
    if (strcmp(option, "rooms") == 0)
        rooms = value;
    if (strcmp(option, "interrupts") == 0)
        interrupts = atol(value);
}

static void read_options(void)
{
    static int is_read;
    const char *how = getenv("TRAPPED_HOW"), *log = getenv("TRAPPED_LOG");
    char *options, *rest, *option;
    if (is_read)
        return;
    is_read = 1;
    folder = getenv("TRAPPED_FOLDER");
    options = strdup(how == NULL ? "" : how);
    for (option = strtok_r(options, ";", &rest); option != NULL; option = strtok_r(NULL, ";", &rest))
        read_option(option);
    if (log != NULL)
        log_file = (int)syscall(SYS_openat, AT_FDCWD, log, O_WRONLY | O_CREAT | O_APPEND, 0644);
}

/* Returns what comes after the folder in a path, or NULL if the path is not below it. */
static const char *below(const char *path)
{
    size_t length;
    read_options();
    if (folder == NULL)
        return NULL;
    length = strlen(folder);
    return strncmp(path, folder, length) == 0 && path[length] == '/' ? path + length : NULL;
}

static void note(const char *call, const char *path)
{
    char line[PATH_MAX + 32];
    int length = snprintf(line, sizeof line, "%s %s\n", call, path);
    if (log_file >= 0)
        (void)!syscall(SYS_write, log_file, line, length);
}

/* Puts a link at a path below the folder, and makes the folder on its way. The link leads to what
 * was there, if that was a folder. */
static void put_link(void)
{
    char path[PATH_MAX], aside[PATH_MAX];
    snprintf(path, sizeof path, "%s%s", folder, link_path);
    *strrchr(path, '/') = 0;
    syscall(SYS_mkdirat, AT_FDCWD, path, 0700);
    snprintf(path, sizeof path, "%s%s", folder, link_path);
    snprintf(aside, sizeof aside, "%s.aside", folder);
    syscall(SYS_unlinkat, AT_FDCWD, path, 0);
    syscall(SYS_renameat2, AT_FDCWD, path, AT_FDCWD, aside, 0);
    syscall(SYS_symlinkat, aside, AT_FDCWD, path);
}

/* Writes the bytes of one file over those of another. */
static void change_file(void)
{
    static int is_changed;
    char *names = getenv("TRAPPED_CHANGE"), *other, bytes[65536];
    int from, to;
    ssize_t size;
    if (is_changed || names == NULL || (other = strchr(names, '=')) == NULL)
        return;
    is_changed = 1;
    *other++ = 0;
    from = (int)syscall(SYS_openat, AT_FDCWD, names, O_RDONLY, 0);
    to = (int)syscall(SYS_openat, AT_FDCWD, other, O_WRONLY, 0);
    while ((size = syscall(SYS_read, from, bytes, sizeof bytes)) > 0)
        (void)!syscall(SYS_write, to, bytes, size);
    syscall(SYS_close, from);
    syscall(SYS_close, to);
}

/* Counts a call at a path below the folder. Returns whether it fails. */
static int fails_now(const char *call, const char *path)
{
    long number;
    pthread_mutex_lock(&lock);
    number = calls++;
    if (number == once && link_path != NULL)
        put_link();
    note(call, path);
    pthread_mutex_unlock(&lock);
    errno = EIO;
    return (fails >= 0 && number >= fails) || (number == once && link_path == NULL);
}

/* Limits the room of a new file. */
static void note_made(int file, const char *path)
{
    struct made *made;
    if (file < 0 || file >= FILES)
        return;
    pthread_mutex_lock(&lock);
    made = &files[file];
    snprintf(made->path, sizeof made->path, "%s", path);
    made->is_made = 1;
    made->has_failed = 0;
    made->interrupts = rooms == NULL ? 0 : interrupts;
    made->room = rooms == NULL ? LONG_MAX : atol(rooms);
    if (rooms != NULL && strchr(rooms, ',') != NULL)
        rooms = strchr(rooms, ',') + 1;
    note("made", path);
    pthread_mutex_unlock(&lock);
}

static struct made *made_of(int file)
{
    return file >= 0 && file < FILES && files[file].is_made ? &files[file] : NULL;
}

/* Opens a folder that is listed, or a file that is not made here. */
int openat(int at, const char *path, int flags, ...)
{
    const char *own = below(path);
    va_list rest;
    mode_t mode;
    va_start(rest, flags);
    mode = flags & O_CREAT ? va_arg(rest, mode_t) : 0;
    va_end(rest);
    if (own != NULL && strcmp(own, "/") == 0 && fails == 0) {
        errno = EIO;
        return -1;
    }
    return (int)syscall(SYS_openat, at, path, flags, mode);
}

int open(const char *path, int flags, ...)
{
    const char *own = below(path);
    int file;
    va_list rest;
    mode_t mode;
    va_start(rest, flags);
    mode = flags & O_CREAT ? va_arg(rest, mode_t) : 0;
    va_end(rest);
    if (own == NULL || (flags & O_CREAT) == 0)
        return openat(AT_FDCWD, path, flags, mode);
    if (fails_now("make", own))
        return -1;
    file = (int)syscall(SYS_openat, AT_FDCWD, path, flags, mode);
    note_made(file, own);
    return file;
}

ssize_t write(int file, const void *bytes, size_t size)
{
    struct made *made = made_of(file);
    ssize_t written;
    if (file == 1)
        change_file();
    if (made == NULL)
        return syscall(SYS_write, file, bytes, size);
    if (made->interrupts > 0) {
        made->interrupts -= 1;
        errno = EINTR;
        return -1;
    }
    note("write", made->path);
    if (rooms != NULL && size > 2)
        size = 2;
    if (size > 0 && made->room == 0) {
        made->has_failed = 1;
        errno = ENOSPC;
        return -1;
    }
    if (size > (size_t)made->room)
        size = made->room;
    written = syscall(SYS_write, file, bytes, size);
    if (written > 0 && rooms != NULL)
        made->room -= written;
    return written;
}

int close(int file)
{
    struct made *made = made_of(file);
    int fails_at_close = made != NULL && !made->has_failed && fails_now("finish", made->path);
    int closed;
    if (made != NULL) {
        note("close", made->path);
        made->is_made = 0;
    }
    closed = (int)syscall(SYS_close, file);
    return fails_at_close ? -1 : closed;
}

int mkdir(const char *path, mode_t mode)
{
    const char *own = below(path);
    if (own != NULL && fails_now("folder", own))
        return -1;
    return NEXT(mkdir)(path, mode);
}

int unlink(const char *path)
{
    const char *own = below(path);
    if (own != NULL && fails_now("remove", own))
        return -1;
    return NEXT(unlink)(path);
}

int statx(int at, const char *path, int flags, unsigned int mask, struct statx *found)
{
    const char *own = (flags & AT_SYMLINK_NOFOLLOW) != 0 ? below(path) : NULL;
    if (own != NULL && fails_now("look", own))
        return -1;
    return (int)syscall(SYS_statx, at, path, flags, mask, found);
}
