/* Refuses one growth of a program, the one number REFUSE of its calls of malloc and realloc, or one thread, the one number
 * REFUSE_THREAD of its calls of pthread_create, and writes the number of these calls to the files COUNT and COUNT_THREADS. */
#define _GNU_SOURCE
#include <dlfcn.h>
#include <errno.h>
#include <pthread.h>
#include <stdatomic.h>
#include <stddef.h>
#include <stdio.h>
#include <stdlib.h>
#include <unistd.h>

static atomic_long growths;
static atomic_long threads;

/* Whether this call, one more of those that are counted, is the one that the variable names. */
static int is_refused(atomic_long *calls, const char *variable)
{
    const char *number = getenv(variable);
    return atomic_fetch_add(calls, 1) + 1 == (number ? atol(number) : 0);
}

void *malloc(size_t size)
{
    static void *(*next)(size_t);
    if (!next)
        next = (void *(*)(size_t))dlsym(RTLD_NEXT, "malloc");
    return is_refused(&growths, "REFUSE") ? NULL : next(size);
}

void *realloc(void *old, size_t size)
{
    static void *(*next)(void *, size_t);
    if (!next)
        next = (void *(*)(void *, size_t))dlsym(RTLD_NEXT, "realloc");
    return is_refused(&growths, "REFUSE") ? NULL : next(old, size);
}

int pthread_create(pthread_t *thread, const pthread_attr_t *attributes, void *(*start)(void *), void *argument)
{
    static int (*next)(pthread_t *, const pthread_attr_t *, void *(*)(void *), void *);
    if (!next)
        next = (int (*)(pthread_t *, const pthread_attr_t *, void *(*)(void *), void *))dlsym(RTLD_NEXT, "pthread_create");
    return is_refused(&threads, "REFUSE_THREAD") ? EAGAIN : next(thread, attributes, start, argument);
}

/* Writes the count to the file that the variable names. */
static void tell(const char *variable, long count)
{
    const char *name = getenv(variable);
    FILE *file = name ? fopen(name, "w") : NULL;
    if (file) {
        fprintf(file, "%ld\n", count);
        fclose(file);
    }
}

__attribute__((destructor)) static void tell_counts(void)
{
    long grown = growths;
    tell("COUNT_THREADS", threads);
    tell("COUNT", grown);
}

/* A program with threads ends so, and no destructor is run then. */
void _exit(int status)
{
    void (*next)(int) = (void (*)(int))dlsym(RTLD_NEXT, "_exit");
    tell_counts();
    next(status);
    __builtin_unreachable();
}
