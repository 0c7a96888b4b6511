/* Makes one request for memory, one read or one write of a program fail: the one with the number in FAIL_MEMORY, FAIL_READ or
 * FAIL_WRITE, counted from 1. Built by faults/faults.py as a library that is loaded in front of the C library. At the end it
 * writes how many of each there were to the file named by FAULTS_SEEN. */
#define _GNU_SOURCE
#include <dlfcn.h>
#include <errno.h>
#include <fcntl.h>
#include <stddef.h>
#include <stdio.h>
#include <stdlib.h>
#include <string.h>
#include <sys/uio.h>
#include <unistd.h>

enum { MEMORY, READ, WRITE, KINDS };
static long seen[KINDS], failing[KINDS];
static int ready;

static int is_turn(int kind) { return ready && ++seen[kind] == failing[kind]; }

__attribute__((constructor)) static void begin(void) {
    static const char *names[KINDS] = {"FAIL_MEMORY", "FAIL_READ", "FAIL_WRITE"};
    for (int kind = 0; kind < KINDS; kind++) {
        const char *number = getenv(names[kind]);
        failing[kind] = number ? atol(number) : 0;
    }
    ready = 1;
}

__attribute__((destructor)) static void end(void) {
    const char *name = getenv("FAULTS_SEEN");
    ready = 0;
    if (!name) return;
    char text[100];
    int length = snprintf(text, sizeof text, "%ld %ld %ld\n", seen[MEMORY], seen[READ], seen[WRITE]);
    int file = open(name, O_WRONLY | O_CREAT | O_TRUNC, 0600);
    if (file < 0) return;
    ssize_t (*plain)(int, const void *, size_t) = dlsym(RTLD_NEXT, "write");
    plain(file, text, (size_t)length);
    close(file);
}

extern void *__libc_malloc(size_t), *__libc_calloc(size_t, size_t), *__libc_realloc(void *, size_t),
    *__libc_memalign(size_t, size_t);

void *malloc(size_t size) { return is_turn(MEMORY) ? NULL : __libc_malloc(size); }
void *calloc(size_t count, size_t size) { return is_turn(MEMORY) ? NULL : __libc_calloc(count, size); }
void *realloc(void *old, size_t size) { return is_turn(MEMORY) ? NULL : __libc_realloc(old, size); }
void *aligned_alloc(size_t to, size_t size) { return is_turn(MEMORY) ? NULL : __libc_memalign(to, size); }

int posix_memalign(void **out, size_t to, size_t size) {
    void *place = is_turn(MEMORY) ? NULL : __libc_memalign(to, size);
    if (!place) return ENOMEM;
    *out = place;
    return 0;
}

ssize_t read(int file, void *into, size_t size) {
    ssize_t (*plain)(int, void *, size_t) = dlsym(RTLD_NEXT, "read");
    if (is_turn(READ)) {
        errno = EIO;
        return -1;
    }
    return plain(file, into, size);
}

ssize_t write(int file, const void *from, size_t size) {
    ssize_t (*plain)(int, const void *, size_t) = dlsym(RTLD_NEXT, "write");
    if (file != 2 && is_turn(WRITE)) {
        errno = EIO;
        return -1;
    }
    return plain(file, from, size);
}
