/* Loaded before the C library: refuses the call of one number of those that take memory, or fails the call of one number, or cuts all calls, of those that
   read standard input or write standard output. FAIL says which: "malloc N", "read N", "cut-read N", "write N" or "cut-write N", counted
   from 1. The calls are counted from the first one of the program itself, which is told by its first read of the variable. */
#define _GNU_SOURCE
#include <dlfcn.h>
#include <errno.h>
#include <stdlib.h>
#include <string.h>
#include <unistd.h>

static long at = -1, counted = 0;
static char what = 0;

static void asked(void) {
    if (at != -1) return;
    const char *fail = getenv("FAIL");
    at = 0;
    if (!fail) return;
    const char *number = strchr(fail, ' ');
    if (!number) return;
    if (!strncmp(fail, "malloc", 6)) what = 'm';
    else if (!strncmp(fail, "read", 4)) what = 'r';
    else if (!strncmp(fail, "cut-read", 8)) what = 'c';
    else if (!strncmp(fail, "write", 5)) what = 'w';
    else if (!strncmp(fail, "cut-write", 9)) what = 'x';
    at = atol(number + 1);
}

static int is_here(char kind) {
    asked();
    return what == kind && ++counted == at;
}

extern void *__libc_malloc(size_t);
extern void *__libc_realloc(void *, size_t);
extern void *__libc_calloc(size_t, size_t);
extern void *__libc_memalign(size_t, size_t);

void *malloc(size_t size) {
    if (is_here('m')) { errno = ENOMEM; return NULL; }
    return __libc_malloc(size);
}

void *calloc(size_t count, size_t size) {
    if (is_here('m')) { errno = ENOMEM; return NULL; }
    return __libc_calloc(count, size);
}

void *realloc(void *old, size_t size) {
    if (is_here('m')) { errno = ENOMEM; return NULL; }
    return __libc_realloc(old, size);
}

int posix_memalign(void **made, size_t alignment, size_t size) {
    if (is_here('m')) return ENOMEM;
    *made = __libc_memalign(alignment, size);
    return *made ? 0 : ENOMEM;
}

void *aligned_alloc(size_t alignment, size_t size) {
    if (is_here('m')) { errno = ENOMEM; return NULL; }
    return __libc_memalign(alignment, size);
}

ssize_t read(int fd, void *buffer, size_t size) {
    static ssize_t (*real)(int, void *, size_t);
    if (!real) real = (ssize_t (*)(int, void *, size_t))dlsym(RTLD_NEXT, "read");
    if (fd == 0 && is_here('r')) { errno = EIO; return -1; }
    if (fd == 0 && what == 'c' && ++counted >= at && size > 1) size = 1 + (size_t)(at % 7);
    return real(fd, buffer, size);
}

ssize_t write(int fd, const void *buffer, size_t size) {
    static ssize_t (*real)(int, const void *, size_t);
    if (!real) real = (ssize_t (*)(int, const void *, size_t))dlsym(RTLD_NEXT, "write");
    if (fd == 1 && is_here('w')) { errno = ENOSPC; return -1; }
    if (fd == 1 && what == 'x') { asked(); ++counted; if (size > (size_t)at) size = (size_t)at; }
    return real(fd, buffer, size);
}
