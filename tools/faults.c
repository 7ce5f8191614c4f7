// Preloaded into the built program by tools/refusals: makes one of its calls fail, or move a single byte.
//
// FAULTS_KIND names the calls that count (below), FAULTS_AT the number of the first that goes wrong, from 1 on (0: none), and
// FAULTS_ALL, where it is set, has all calls after it go wrong too. FAULTS_FILE is a file of two 64-bit numbers, both 0 at the
// start: the calls that were counted, and those that went wrong. It is mapped, so that it holds however the program ends.

#define _GNU_SOURCE
#include <errno.h>
#include <fcntl.h>
#include <stdint.h>
#include <stdlib.h>
#include <string.h>
#include <sys/mman.h>
#include <sys/syscall.h>
#include <unistd.h>

void *__libc_malloc(size_t size);
void *__libc_calloc(size_t count, size_t size);
void *__libc_realloc(void *old, size_t size);

static const char *kind = "";
static uint64_t first;
static int all;
static uint64_t *counts;

__attribute__((constructor)) static void begin(void) {
    const char *file = getenv("FAULTS_FILE"), *at = getenv("FAULTS_AT"), *wanted = getenv("FAULTS_KIND");
    if (!file || !at || !wanted)
        return;
    int fd = open(file, O_RDWR);
    void *place = fd < 0 ? MAP_FAILED : mmap(NULL, 16, PROT_READ | PROT_WRITE, MAP_SHARED, fd, 0);
    if (place == MAP_FAILED)
        _exit(99);
    close(fd);
    first = strtoull(at, NULL, 10);
    all = getenv("FAULTS_ALL") != NULL;
    kind = wanted;
    counts = place;
}

// Whether this call, if it is one of those that count, is to go wrong.
static int is_due(const char *its_kind) {
    if (!counts || strcmp(kind, its_kind) != 0)
        return 0;
    uint64_t number = ++counts[0];
    if (!first || number < first || (number > first && !all))
        return 0;
    counts[1]++;
    return 1;
}

// Allocations: no memory.

void *malloc(size_t size) {
    return is_due("allocation") ? (errno = ENOMEM, NULL) : __libc_malloc(size);
}

void *calloc(size_t count, size_t size) {
    return is_due("allocation") ? (errno = ENOMEM, NULL) : __libc_calloc(count, size);
}

void *realloc(void *old, size_t size) {
    return is_due("allocation") ? (errno = ENOMEM, NULL) : __libc_realloc(old, size);
}

// Reads: an error, or one byte alone.

ssize_t read(int fd, void *to, size_t size) {
    if (is_due("read"))
        return errno = EIO, -1;
    if (size > 1 && is_due("short read"))
        size = 1;
    return syscall(SYS_read, fd, to, size);
}

// Writes: an error, a count of 0, or one byte alone; those on standard error are counted apart.

ssize_t write(int fd, const void *from, size_t size) {
    if (fd == 2 ? is_due("write of a fault") : is_due("write"))
        return errno = ENOSPC, -1;
    if (fd != 2 && is_due("write of nothing"))
        return 0;
    if (size > 1 && is_due("short write"))
        size = 1;
    return syscall(SYS_write, fd, from, size);
}

ssize_t __read(int fd, void *to, size_t size) {
    return read(fd, to, size);
}

ssize_t __write(int fd, const void *from, size_t size) {
    return write(fd, from, size);
}
