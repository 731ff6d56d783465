/* Fails one call of a program on one file: FAIL_FILE names the file as the program does, FAIL_CALL the number of the call, counted from 1 over lseek, read, write,
   fsync and fdatasync on it since it was opened first. The call does nothing and answers EIO. Where FAIL_COUNT names a file, the number of all such calls is written there
   at the end, which the program may come to by _exit. Where FAIL_TRACE names a file, what a crash may undo is written there: behind each write and each sync of the file a
   line "write AT SIZE" with the bytes, or "sync", and before each write elsewhere "tell FILE SIZE" with the bytes. Loaded before the C library by LD_PRELOAD. */
#define _GNU_SOURCE
#include <dlfcn.h>
#include <errno.h>
#include <fcntl.h>
#include <pthread.h>
#include <stdarg.h>
#include <stdatomic.h>
#include <stdio.h>
#include <stdlib.h>
#include <string.h>
#include <sys/syscall.h>
#include <sys/types.h>
#include <unistd.h>

static atomic_long count;
static atomic_int watched = -1;
static int trace = -1;
static pthread_mutex_t tracing = PTHREAD_MUTEX_INITIALIZER;

__attribute__((constructor)) static void begin(void) {
    char *path = getenv("FAIL_TRACE");
    if (path) trace = syscall(SYS_open, path, O_WRONLY | O_CREAT | O_APPEND, 0600);
}

/* By the system's own calls, so that it grows no memory and is no call of the program. */
static void traced(const char *what, long at, const void *bytes, long size) {
    char line[64];
    if (trace < 0) return;
    int length = size < 0 ? snprintf(line, sizeof line, "%s\n", what) : snprintf(line, sizeof line, "%s %ld %ld\n", what, at, size);
    pthread_mutex_lock(&tracing);
    syscall(SYS_write, trace, line, length);
    if (size > 0) syscall(SYS_write, trace, bytes, size);
    pthread_mutex_unlock(&tracing);
}

static void tell(void) {
    char *path = getenv("FAIL_COUNT");
    FILE *file = path ? fopen(path, "w") : NULL;
    if (file) {
        fprintf(file, "%ld\n", atomic_load(&count));
        fclose(file);
    }
}

__attribute__((destructor)) static void end(void) {
    tell();
}

void _exit(int status) {
    tell();
    for (;;) syscall(SYS_exit_group, status);
}

static int opened(int file, const char *path) {
    char *name = getenv("FAIL_FILE");
    if (file >= 0 && name && path && !strcmp(path, name)) atomic_store(&watched, file);
    return file;
}

static int opens(const char *call, int folder, const char *path, int flags, mode_t mode) {
    int (*next)(int, const char *, int, ...) = (int (*)(int, const char *, int, ...))dlsym(RTLD_NEXT, call);
    return opened(next(folder, path, flags, mode), path);
}

int open(const char *path, int flags, ...) {
    va_list rest;
    va_start(rest, flags);
    mode_t mode = va_arg(rest, mode_t);
    va_end(rest);
    return opens("openat", AT_FDCWD, path, flags, mode);
}

int open64(const char *path, int flags, ...) {
    va_list rest;
    va_start(rest, flags);
    mode_t mode = va_arg(rest, mode_t);
    va_end(rest);
    return opens("openat64", AT_FDCWD, path, flags, mode);
}

int close(int file) {
    static int (*next)(int);
    if (!next) next = (int (*)(int))dlsym(RTLD_NEXT, "close");
    if (file == atomic_load(&watched)) atomic_store(&watched, -1);
    return next(file);
}

static int fails(int file) {
    char *number = getenv("FAIL_CALL");
    if (file < 0 || file != atomic_load(&watched)) return 0;
    if (atomic_fetch_add(&count, 1) + 1 != (number ? atol(number) : 0)) return 0;
    errno = EIO;
    return 1;
}

ssize_t read(int file, void *room, size_t size) {
    static ssize_t (*next)(int, void *, size_t);
    if (!next) next = (ssize_t (*)(int, void *, size_t))dlsym(RTLD_NEXT, "read");
    return fails(file) ? -1 : next(file, room, size);
}

ssize_t write(int file, const void *bytes, size_t size) {
    static ssize_t (*next)(int, const void *, size_t);
    if (!next) next = (ssize_t (*)(int, const void *, size_t))dlsym(RTLD_NEXT, "write");
    if (file != atomic_load(&watched)) {
        traced("tell", file, bytes, size);
        return next(file, bytes, size);
    }
    off_t at = trace < 0 ? 0 : syscall(SYS_lseek, file, 0, SEEK_CUR);
    ssize_t done = fails(file) ? -1 : next(file, bytes, size);
    if (done > 0) traced("write", at, bytes, done);
    return done;
}

static off_t sought(const char *call, int file, off_t at, int whence) {
    off_t (*next)(int, off_t, int) = (off_t (*)(int, off_t, int))dlsym(RTLD_NEXT, call);
    return fails(file) ? -1 : next(file, at, whence);
}

off_t lseek(int file, off_t at, int whence) {
    return sought("lseek", file, at, whence);
}

off_t lseek64(int file, off_t at, int whence) {
    return sought("lseek64", file, at, whence);
}

static int synced(const char *call, int file) {
    int (*next)(int) = (int (*)(int))dlsym(RTLD_NEXT, call);
    int done = fails(file) ? -1 : next(file);
    if (!done && file == atomic_load(&watched)) traced("sync", 0, NULL, -1);
    return done;
}

int fsync(int file) {
    return synced("fsync", file);
}

int fdatasync(int file) {
    return synced("fdatasync", file);
}
