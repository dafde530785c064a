// Refuses one allocation of a program, or its threads: a library that is loaded before the system's own (LD_PRELOAD).
//
// REFUSE_CALL=N has the N-th call of malloc, calloc or realloc answer that there is no memory, and no other. Calls are
// counted from 1, by all threads together, from before main on. REFUSE_THREAD=N has the N-th call of pthread_create and
// all later ones answer that there is no thread. REFUSE_COUNTS names a file of sixteen bytes, in which the numbers of
// both kinds of calls stand when the program has ended, however it did.

#define _GNU_SOURCE

#include <dlfcn.h>
#include <errno.h>
#include <fcntl.h>
#include <pthread.h>
#include <stdatomic.h>
#include <stdbool.h>
#include <stdlib.h>
#include <sys/mman.h>
#include <unistd.h>

void *__libc_malloc(size_t size);
void *__libc_calloc(size_t number, size_t size);
void *__libc_realloc(void *old, size_t size);

struct counts {
    atomic_ulong calls;
    atomic_ulong threads;
};

static struct counts unkept;
static struct counts *counts = &unkept;
static unsigned long refused_call;
static unsigned long refused_thread;
static atomic_bool begun;

static unsigned long number_in(const char *name)
{
    const char *text = getenv(name);
    return text ? strtoul(text, NULL, 10) : 0;
}

__attribute__((constructor)) static void begin(void)
{
    const char *name = getenv("REFUSE_COUNTS");
    int file = name ? open(name, O_RDWR) : -1;
    if (file >= 0) {
        void *kept = mmap(NULL, sizeof unkept, PROT_READ | PROT_WRITE, MAP_SHARED, file, 0);
        if (kept != MAP_FAILED)
            counts = kept;
        close(file);
    }
    refused_call = number_in("REFUSE_CALL");
    refused_thread = number_in("REFUSE_THREAD");
    begun = true;
}

static bool is_refused(void)
{
    if (!begun || atomic_fetch_add(&counts->calls, 1) + 1 != refused_call)
        return false;
    errno = ENOMEM;
    return true;
}

void *malloc(size_t size)
{
    return is_refused() ? NULL : __libc_malloc(size);
}

void *calloc(size_t number, size_t size)
{
    return is_refused() ? NULL : __libc_calloc(number, size);
}

void *realloc(void *old, size_t size)
{
    return is_refused() ? NULL : __libc_realloc(old, size);
}

int pthread_create(pthread_t *thread, const pthread_attr_t *attributes, void *(*body)(void *), void *argument)
{
    unsigned long number = atomic_fetch_add(&counts->threads, 1) + 1;
    if (refused_thread && number >= refused_thread)
        return EAGAIN;
    int (*create)(pthread_t *, const pthread_attr_t *, void *(*)(void *), void *) = dlsym(RTLD_NEXT, "pthread_create");
    return create(thread, attributes, body, argument);
}
