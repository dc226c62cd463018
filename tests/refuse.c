/* Refuses one growth of memory of the program that it is loaded into (LD_PRELOAD), and counts them all.
   REFUSE=N: the growth of number N, counted from 1, finds no memory; 0: none. REFUSE_COUNT: the file that gets the count. */
#define _GNU_SOURCE
#include <dlfcn.h>
#include <errno.h>
#include <fcntl.h>
#include <stdatomic.h>
#include <stdio.h>
#include <stdlib.h>
#include <unistd.h>

static atomic_long made;
static long refused = -1;

static int is_refused(void)
{
    if (refused < 0) {
        const char *given = getenv("REFUSE");
        refused = given ? atol(given) : 0;
    }
    return atomic_fetch_add(&made, 1) + 1 == refused;
}

void *malloc(size_t size)
{
    static void *(*next)(size_t);
    if (!next) next = dlsym(RTLD_NEXT, "malloc");
    if (is_refused()) { errno = ENOMEM; return NULL; }
    return next(size);
}

void *calloc(size_t count, size_t size)
{
    static void *(*next)(size_t, size_t);
    if (!next) next = dlsym(RTLD_NEXT, "calloc");
    if (is_refused()) { errno = ENOMEM; return NULL; }
    return next(count, size);
}

void *realloc(void *from, size_t size)
{
    static void *(*next)(void *, size_t);
    if (!next) next = dlsym(RTLD_NEXT, "realloc");
    if (is_refused()) { errno = ENOMEM; return NULL; }
    return next(from, size);
}

void *aligned_alloc(size_t alignment, size_t size)
{
    static void *(*next)(size_t, size_t);
    if (!next) next = dlsym(RTLD_NEXT, "aligned_alloc");
    if (is_refused()) { errno = ENOMEM; return NULL; }
    return next(alignment, size);
}

int posix_memalign(void **into, size_t alignment, size_t size)
{
    static int (*next)(void **, size_t, size_t);
    if (!next) next = dlsym(RTLD_NEXT, "posix_memalign");
    if (is_refused()) return ENOMEM;
    return next(into, alignment, size);
}

/* Writes the count, without taking memory. */
static void tell(void)
{
    const char *name = getenv("REFUSE_COUNT");
    char text[24];
    int file, length;
    if (!name) return;
    length = snprintf(text, sizeof text, "%ld\n", atomic_load(&made));
    file = open(name, O_WRONLY | O_CREAT | O_TRUNC, 0600);
    if (file < 0) return;
    if (write(file, text, length) != length) abort();
    close(file);
}

/* A program with threads ends so, and one without by a return from main. */
__attribute__((noreturn)) void _exit(int status)
{
    void (*next)(int) = dlsym(RTLD_NEXT, "_exit");
    tell();
    next(status);
    __builtin_unreachable();
}

__attribute__((destructor)) static void ended(void)
{
    tell();
}
