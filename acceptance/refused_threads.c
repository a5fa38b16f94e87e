/* Refuses threads: preloaded, it lets a call of `pthread_create` fail with EAGAIN, as the system does
 * at its limit of threads. REFUSED_THREAD is the number of the call, counted from 1; if REFUSED_REST is
 * set, each later one fails, too. A byte is appended to the file REFUSED_LOG for each call that failed. */
#define _GNU_SOURCE
#include <dlfcn.h>
#include <errno.h>
#include <fcntl.h>
#include <pthread.h>
#include <stdatomic.h>
#include <stdlib.h>
#include <unistd.h>

typedef int create(pthread_t *, const pthread_attr_t *, void *(*)(void *), void *);

static atomic_int calls;
static int refused_call, refuses_rest;
static create *next_create;

__attribute__((constructor)) static void begin(void)
{
    const char *call = getenv("REFUSED_THREAD");
    next_create = (create *)dlsym(RTLD_NEXT, "pthread_create");
    refused_call = call == NULL ? 0 : atoi(call);
    refuses_rest = getenv("REFUSED_REST") != NULL;
}

static int is_refused(int call)
{
    return refused_call > 0 && (call == refused_call || (refuses_rest && call > refused_call));
}

static void note_refusal(void)
{
    const char *path = getenv("REFUSED_LOG");
    int log = path == NULL ? -1 : open(path, O_WRONLY | O_CREAT | O_APPEND, 0644);
    if (log >= 0) {
        (void)!write(log, "x", 1);
        close(log);
    }
}

int pthread_create(pthread_t *thread, const pthread_attr_t *how, void *(*run)(void *), void *with)
{
    if (is_refused(atomic_fetch_add(&calls, 1) + 1)) {
        note_refusal();
        return EAGAIN;
    }
    return next_create(thread, how, run, with);
}
