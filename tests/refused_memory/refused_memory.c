/* Refuses one allocation of the program that it is loaded into: the one of the number that stands second in the file REFUSED. The first
   number in that file says how many were asked for. Of that program alone: the file is mapped, so both numbers can be read and set while it runs. */
#define _GNU_SOURCE
#include <dlfcn.h>
#include <errno.h>
#include <fcntl.h>
#include <stdint.h>
#include <stdlib.h>
#include <sys/mman.h>
#include <unistd.h>

static uint64_t *numbers;

__attribute__((constructor)) static void begin(void) {
    const char *path = getenv("REFUSED");
    int file = path ? open(path, O_RDWR) : -1;
    if (file < 0) return;
    void *at = mmap(NULL, 16, PROT_READ | PROT_WRITE, MAP_SHARED, file, 0);
    close(file);
    if (at != MAP_FAILED) numbers = at;
}

static int is_refused(void) {
    return numbers && ++numbers[0] == numbers[1];
}

extern void *__libc_malloc(size_t);
extern void *__libc_calloc(size_t, size_t);
extern void *__libc_realloc(void *, size_t);
extern void *__libc_memalign(size_t, size_t);

static void *refused(void) {
    errno = ENOMEM;
    return NULL;
}

void *malloc(size_t size) {
    return is_refused() ? refused() : __libc_malloc(size);
}

void *calloc(size_t count, size_t size) {
    return is_refused() ? refused() : __libc_calloc(count, size);
}

void *realloc(void *old, size_t size) {
    return is_refused() ? refused() : __libc_realloc(old, size);
}

void *aligned_alloc(size_t alignment, size_t size) {
    return is_refused() ? refused() : __libc_memalign(alignment, size);
}

int posix_memalign(void **to, size_t alignment, size_t size) {
    if (is_refused()) return ENOMEM;
    *to = __libc_memalign(alignment, size);
    return *to ? 0 : ENOMEM;
}
