/*
 * Refuses one request for memory, for checks/memory/run: that whose number REFUSED gives, counted from the line `ready` of the
 * program's output to its line `back`, or from the program's start if WHOLE is set.
 */
#define _GNU_SOURCE
#include <errno.h>
#include <stdatomic.h>
#include <stdlib.h>
#include <sys/syscall.h>
#include <sys/uio.h>
#include <unistd.h>

void *__libc_malloc(size_t), *__libc_calloc(size_t, size_t), *__libc_realloc(void *, size_t), *__libc_memalign(size_t, size_t);

static atomic_long requests;
static atomic_int inside;
static long refused_at;

__attribute__((constructor)) static void begin(void) {
    refused_at = atol(getenv("REFUSED"));
    atomic_store(&inside, getenv("WHOLE") != 0);
}

/* Between the lines `ready` and `back` on standard output. */
static void look(const char *text, size_t length) {
    if (length >= 5 && !__builtin_memcmp(text, "ready", 5)) atomic_store(&inside, 1);
    if (length >= 4 && !__builtin_memcmp(text, "back", 4)) atomic_store(&inside, 0);
}

static int is_refused(void) {
    if (!atomic_load(&inside) || atomic_fetch_add(&requests, 1) + 1 != refused_at) return 0;
    syscall(SYS_write, 2, "refused\n", 8);
    errno = ENOMEM;
    return 1;
}

void *malloc(size_t size) { return is_refused() ? 0 : __libc_malloc(size); }
void *calloc(size_t count, size_t size) { return is_refused() ? 0 : __libc_calloc(count, size); }
void *realloc(void *old, size_t size) { return is_refused() ? 0 : __libc_realloc(old, size); }
void *aligned_alloc(size_t align, size_t size) { return is_refused() ? 0 : __libc_memalign(align, size); }
void *memalign(size_t align, size_t size) { return is_refused() ? 0 : __libc_memalign(align, size); }
int posix_memalign(void **place, size_t align, size_t size) {
    if (is_refused()) return ENOMEM;
    *place = __libc_memalign(align, size);
    return *place ? 0 : ENOMEM;
}

ssize_t write(int file, const void *text, size_t length) {
    if (file == 1) look(text, length);
    return syscall(SYS_write, file, text, length);
}

ssize_t writev(int file, const struct iovec *parts, int count) {
    if (file == 1 && count > 0) look(parts[0].iov_base, parts[0].iov_len);
    return syscall(SYS_writev, file, parts, count);
}
