/* Refuses a program memory, or threads (LD_PRELOAD).
 *
 *   REFUSE_GROWTH  the number of a growth, from 1: it is refused
 *   REFUSE_THREAD  the number of a thread's start, from 1: it is refused
 *   REFUSE_ALL     so is each one after it
 *   REFUSE_LOG     the number of growths and starts is written there, in a line, at the end
 *
 * A growth is a call that asks for memory or for more of it, the C library's own too, from the
 * program's first to its last.
 */
#define _GNU_SOURCE
#include <dlfcn.h>
#include <errno.h>
#include <fcntl.h>
#include <pthread.h>
#include <stdatomic.h>
#include <stdio.h>
#include <stdlib.h>
#include <sys/syscall.h>
#include <unistd.h>

extern void *__libc_malloc(size_t count);
extern void *__libc_calloc(size_t number, size_t count);
extern void *__libc_realloc(void *old, size_t count);
extern void *__libc_memalign(size_t align, size_t count);

typedef int start(pthread_t *, const pthread_attr_t *, void *(*)(void *), void *);

static start *next_start;
static int log_file = -1, is_all, is_counted;
static long refused_growth, refused_thread;
static atomic_long growths, threads;

static long number_of(const char *name)
{
    const char *text = getenv(name);
    return text ? atol(text) : 0;
}

__attribute__((constructor)) static void begin(void)
{
    next_start = (start *)dlsym(RTLD_NEXT, "pthread_create");
    refused_growth = number_of("REFUSE_GROWTH");
    refused_thread = number_of("REFUSE_THREAD");
    is_all = getenv("REFUSE_ALL") != NULL;
    if (getenv("REFUSE_LOG"))
        log_file = open(getenv("REFUSE_LOG"), O_WRONLY | O_CREAT | O_TRUNC | O_CLOEXEC, 0644);
    is_counted = 1;
}


static int is_refused(atomic_long *count, long number)
{
    long it = is_counted ? ++*count : 0;
    return it && number && (is_all ? it >= number : it == number);
}

static int has_none(void)
{
    if (!is_refused(&growths, refused_growth))
        return 0;
    errno = ENOMEM;
    return 1;
}

void *malloc(size_t count)
{
    return has_none() ? NULL : __libc_malloc(count);
}

void *calloc(size_t number, size_t count)
{
    return has_none() ? NULL : __libc_calloc(number, count);
}

void *realloc(void *old, size_t count)
{
    return has_none() ? NULL : __libc_realloc(old, count);
}

void *memalign(size_t align, size_t count)
{
    return has_none() ? NULL : __libc_memalign(align, count);
}

void *aligned_alloc(size_t align, size_t count)
{
    return memalign(align, count);
}

int posix_memalign(void **made, size_t align, size_t count)
{
    void *found = memalign(align, count);
    if (found)
        *made = found;
    return found ? 0 : ENOMEM;
}

int pthread_create(pthread_t *thread, const pthread_attr_t *how, void *(*what)(void *), void *with)
{
    if (is_refused(&threads, refused_thread))
        return EAGAIN;
    return next_start(thread, how, what, with);
}

/* (the program ends by this call, and runs no destructor) */
void _exit(int status)
{
    is_counted = 0;
    if (log_file >= 0)
        dprintf(log_file, "%ld %ld\n", growths, threads);
    syscall(SYS_exit_group, status);
    __builtin_unreachable();
}
