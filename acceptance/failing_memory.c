/* Refuses memory: preloaded, it lets one request of the program for memory fail, or that one and
 * all after it. REFUSED_REQUEST is the number of the request, counted from 1. If REFUSED_LATER is
 * set, each later one fails too. A byte is appended to the file REFUSED_LOG when the first is
 * refused, and the number of requests is written to the file REFUSED_COUNT when the program ends.
 *
 * The requests are the calls of malloc, calloc and realloc, those that the C library itself makes
 * included, as for a thread. */
#define _GNU_SOURCE
#include <errno.h>
#include <fcntl.h>
#include <stdatomic.h>
#include <stdio.h>
#include <stdlib.h>
#include <sys/syscall.h>
#include <unistd.h>

extern void *__libc_malloc(size_t);
extern void *__libc_calloc(size_t, size_t);
extern void *__libc_realloc(void *, size_t);

static atomic_long made;
static long refused;
static int refuses_later;
static int log_file = -1;
static int count_file = -1;

static int opened(const char *name)
{
    const char *path = getenv(name);
    return path == NULL ? -1 : open(path, O_WRONLY | O_CREAT | O_TRUNC | O_CLOEXEC, 0644);
}

__attribute__((constructor)) static void begin(void)
{
    const char *request = getenv("REFUSED_REQUEST");
    log_file = opened("REFUSED_LOG");
    count_file = opened("REFUSED_COUNT");
    refuses_later = getenv("REFUSED_LATER") != NULL;
    refused = request == NULL ? 0 : atol(request);
    atomic_store(&made, 0);
}

static void tell_count(void)
{
    char text[32];
    int size = snprintf(text, sizeof text, "%ld", atomic_load(&made));
    if (count_file >= 0)
        (void)!pwrite(count_file, text, (size_t)size, 0);
}

/* A program ends by returning from its main function, or by this call. */
__attribute__((destructor)) static void end(void)
{
    tell_count();
}

void _exit(int status)
{
    tell_count();
    for (;;)
        syscall(SYS_exit_group, status);
}

static int is_refused(void)
{
    long number = atomic_fetch_add(&made, 1) + 1;
    if (refused == 0 || (number != refused && (!refuses_later || number < refused)))
        return 0;
    if (number == refused && log_file >= 0)
        (void)!write(log_file, "x", 1);
    errno = ENOMEM;
    return 1;
}

void *malloc(size_t size)
{
    return is_refused() ? NULL : __libc_malloc(size);
}

void *calloc(size_t count, size_t size)
{
    return is_refused() ? NULL : __libc_calloc(count, size);
}

void *realloc(void *old, size_t size)
{
    return is_refused() ? NULL : __libc_realloc(old, size);
}
