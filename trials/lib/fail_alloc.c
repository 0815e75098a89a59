// Makes requests to the C library's allocator fail, by LD_PRELOAD: the one whose number, from 1, is in FAIL_ALLOC, or from it on
// every one, where FAIL_ALLOC_ON is set. At the end the number of requests that were made is written to the file that
// FAIL_ALLOC_COUNT names, also where the program ends by `_exit`. With FAIL_ALLOC_SPARE the requests for zeros are none of these: a
// program of ours makes none of them, and the C library does for each thread.
#define _GNU_SOURCE
#include <dlfcn.h>
#include <errno.h>
#include <fcntl.h>
#include <stdlib.h>
#include <sys/syscall.h>
#include <unistd.h>

static unsigned long failing, made;
static int from_there_on, spares_zeros, is_known;

static void know(void) {
    if (!is_known) {
        const char *number = getenv("FAIL_ALLOC");
        failing = number ? strtoul(number, 0, 10) : 0;
        from_there_on = getenv("FAIL_ALLOC_ON") != 0;
        spares_zeros = getenv("FAIL_ALLOC_SPARE") != 0;
        is_known = 1;
    }
}

static int fails(void) {
    know();
    // threads of a service ask at once
    unsigned long number = __atomic_add_fetch(&made, 1, __ATOMIC_RELAXED);
    if (!failing || (number != failing && !(from_there_on && number > failing))) return 0;
    errno = ENOMEM;
    return 1;
}

__attribute__((destructor)) static void count(void) {
    const char *path = getenv("FAIL_ALLOC_COUNT");
    int file = path ? open(path, O_WRONLY | O_CREAT | O_TRUNC, 0600) : -1;
    char digits[24];
    int at = sizeof digits;
    unsigned long left = made;
    if (file < 0) return;
    do digits[--at] = '0' + left % 10;
    while (left /= 10);
    if (write(file, digits + at, sizeof digits - at) < 0) syscall(SYS_exit_group, 125);
    close(file);
}

void _exit(int status) {
    count();
    for (;;) syscall(SYS_exit_group, status);
}

#define REAL(name) \
    static __typeof__(name) *real; \
    if (!real) real = (__typeof__(name) *)dlsym(RTLD_NEXT, #name)

void *malloc(size_t size) {
    REAL(malloc);
    return fails() ? 0 : real(size);
}

void *calloc(size_t count, size_t size) {
    REAL(calloc);
    know();
    return !spares_zeros && fails() ? 0 : real(count, size);
}

void *realloc(void *from, size_t size) {
    REAL(realloc);
    return fails() ? 0 : real(from, size);
}

void *aligned_alloc(size_t alignment, size_t size) {
    REAL(aligned_alloc);
    return fails() ? 0 : real(alignment, size);
}

int posix_memalign(void **to, size_t alignment, size_t size) {
    REAL(posix_memalign);
    return fails() ? ENOMEM : real(to, alignment, size);
}
