/* Lets drives of a restore fail: preloaded, it lets the tenth `pread` of a thread fail with EIO, as
 * long as drives are to fail. FAILING_DRIVES is their number, and a byte is appended to the file
 * FAILING_LOG for each. A drive that failed reads no further, and each drive reads in its own
 * thread, so each failure is that of another drive. */
#define _GNU_SOURCE
#include <dlfcn.h>
#include <errno.h>
#include <fcntl.h>
#include <stdatomic.h>
#include <stdlib.h>
#include <unistd.h>

enum { FAILING_CALL = 10 };

typedef ssize_t read_at(int, void *, size_t, off_t);

static atomic_int drives_to_fail;
static read_at *next_pread;
static _Thread_local int calls;

__attribute__((constructor)) static void begin(void)
{
    const char *count = getenv("FAILING_DRIVES");
    next_pread = (read_at *)dlsym(RTLD_NEXT, "pread");
    atomic_store(&drives_to_fail, count == NULL ? 0 : atoi(count));
}

static void note_failure(void)
{
    const char *path = getenv("FAILING_LOG");
    int log = path == NULL ? -1 : open(path, O_WRONLY | O_CREAT | O_APPEND, 0644);
    if (log >= 0) {
        (void)!write(log, "x", 1);
        close(log);
    }
}

ssize_t pread(int file, void *bytes, size_t size, off_t place)
{
    if (++calls == FAILING_CALL && atomic_fetch_sub(&drives_to_fail, 1) > 0) {
        note_failure();
        errno = EIO;
        return -1;
    }
    return next_pread(file, bytes, size, place);
}
