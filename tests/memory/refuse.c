/* Refuses one growth of a program's memory: the one whose number REFUSE names, counted from 1 over malloc, calloc, realloc, aligned_alloc and posix_memalign.
   Where REFUSE_COUNT names a file, the number of all growths is written there at the end, which the program may come to by _exit. Loaded before the
   C library by LD_PRELOAD. */
#define _GNU_SOURCE
#include <dlfcn.h>
#include <errno.h>
#include <stdatomic.h>
#include <stdio.h>
#include <stdlib.h>
#include <sys/syscall.h>
#include <unistd.h>

static atomic_long count;
static long refused;
static void *(*next_malloc)(size_t);
static void *(*next_calloc)(size_t, size_t);
static void *(*next_realloc)(void *, size_t);
static void *(*next_aligned)(size_t, size_t);
static int (*next_memalign)(void **, size_t, size_t);
/* What dlsym itself asks for, before the library's own are known. */
static char early[65536];
static atomic_size_t taken;

static void *early_bytes(size_t size) {
    size_t at = atomic_fetch_add(&taken, (size + 15) & ~(size_t)15);
    return at + size <= sizeof early ? early + at : NULL;
}

static int is_early(void *at) {
    return (char *)at >= early && (char *)at < early + sizeof early;
}

__attribute__((constructor)) static void begin(void) {
    char *number = getenv("REFUSE");
    next_malloc = (void *(*)(size_t))dlsym(RTLD_NEXT, "malloc");
    next_calloc = (void *(*)(size_t, size_t))dlsym(RTLD_NEXT, "calloc");
    next_realloc = (void *(*)(void *, size_t))dlsym(RTLD_NEXT, "realloc");
    next_aligned = (void *(*)(size_t, size_t))dlsym(RTLD_NEXT, "aligned_alloc");
    next_memalign = (int (*)(void **, size_t, size_t))dlsym(RTLD_NEXT, "posix_memalign");
    refused = number ? atol(number) : 0;
    atomic_store(&count, 0);
}

static void tell(void) {
    char *path = getenv("REFUSE_COUNT");
    long all = atomic_load(&count);
    FILE *file = path ? fopen(path, "w") : NULL;
    if (file) {
        fprintf(file, "%ld\n", all);
        fclose(file);
    }
}

__attribute__((destructor)) static void end(void) {
    tell();
}

void _exit(int status) {
    tell();
    for (;;) syscall(SYS_exit_group, status);
}

static int is_refused(void) {
    if (atomic_fetch_add(&count, 1) + 1 != refused) return 0;
    errno = ENOMEM;
    return 1;
}

void *malloc(size_t size) {
    if (!next_malloc) return early_bytes(size);
    return is_refused() ? NULL : next_malloc(size);
}

void *calloc(size_t number, size_t size) {
    if (!next_calloc) return early_bytes(number * size);
    return is_refused() ? NULL : next_calloc(number, size);
}

void *realloc(void *at, size_t size) {
    if (!next_realloc || is_early(at)) return early_bytes(size);
    return is_refused() ? NULL : next_realloc(at, size);
}

void *aligned_alloc(size_t step, size_t size) {
    return is_refused() ? NULL : next_aligned(step, size);
}

int posix_memalign(void **at, size_t step, size_t size) {
    return is_refused() ? ENOMEM : next_memalign(at, step, size);
}

void free(void *at) {
    static void (*next_free)(void *);
    if (is_early(at)) return;
    if (!next_free) next_free = (void (*)(void *))dlsym(RTLD_NEXT, "free");
    next_free(at);
}
