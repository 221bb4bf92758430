/* Counts the memory requests of the program that it is loaded before, and refuses the one that REFUSED_REQUEST names;
   COUNT_FILE gets their number. bench/no_memory compiles and loads it. */
#define _GNU_SOURCE
#include <dlfcn.h>
#include <errno.h>
#include <stdio.h>
#include <stdlib.h>
#include <string.h>
#include <unistd.h>

static long asked, refused_number = -1;
static int is_ready;
/* while dlsym looks for a function: it may itself ask for zeros, and can do without */
static int is_looking;

static void begin(void) {
    if (!is_ready) {
        is_ready = 1;
        const char *number = getenv("REFUSED_REQUEST");
        refused_number = number ? atol(number) : 0;
    }
}

static int is_refused(void) {
    begin();
    return ++asked == refused_number;
}

#define NEXT(name, type) \
    static type next; \
    if (!next) { is_looking = 1; next = (type)dlsym(RTLD_NEXT, name); is_looking = 0; }

void *malloc(size_t size) {
    typedef void *(*call)(size_t);
    NEXT("malloc", call);
    if (is_refused()) { errno = ENOMEM; return NULL; }
    return next(size);
}

void *calloc(size_t count, size_t size) {
    typedef void *(*call)(size_t, size_t);
    if (is_looking) return NULL;
    NEXT("calloc", call);
    if (is_refused()) { errno = ENOMEM; return NULL; }
    return next(count, size);
}

void *realloc(void *old, size_t size) {
    typedef void *(*call)(void *, size_t);
    NEXT("realloc", call);
    if (is_refused()) { errno = ENOMEM; return NULL; }
    return next(old, size);
}

int posix_memalign(void **result, size_t align, size_t size) {
    typedef int (*call)(void **, size_t, size_t);
    NEXT("posix_memalign", call);
    if (is_refused()) return ENOMEM;
    return next(result, align, size);
}

void *aligned_alloc(size_t align, size_t size) {
    typedef void *(*call)(size_t, size_t);
    NEXT("aligned_alloc", call);
    if (is_refused()) { errno = ENOMEM; return NULL; }
    return next(align, size);
}

__attribute__((destructor)) static void end(void) {
    /* what the file takes is neither counted nor refused */
    long count = asked;
    is_ready = 1;
    refused_number = -1;
    const char *path = getenv("COUNT_FILE");
    if (path) {
        FILE *file = fopen(path, "w");
        if (file) { fprintf(file, "%ld\n", count); fclose(file); }
    }
}
