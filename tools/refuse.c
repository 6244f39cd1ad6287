/* Preloaded into a program, refuses one of its requests for memory: the one whose number, from 1 on, stands in REFUSE. How many
   there were is kept in the file that REFUSE_COUNT names, 8 bytes long. Refuses each thread but the first so many, where
   REFUSE_THREADS is such a number. Fails the read of standard input whose number, from 0 on, is FAIL_READ; and the write whose
   number on the stream FAIL_STREAM (1 or 2) is FAIL_WRITE, which takes FAIL_TAKES bytes first. A short write and the write of what
   is left count as one. It needs the GNU C library. For tools/hostile.py. */
#define _GNU_SOURCE
#include <dlfcn.h>
#include <errno.h>
#include <fcntl.h>
#include <pthread.h>
#include <stdatomic.h>
#include <stdint.h>
#include <stdlib.h>
#include <sys/mman.h>
#include <unistd.h>

void *__libc_malloc(size_t size);
void *__libc_calloc(size_t count, size_t size);
void *__libc_realloc(void *old, size_t size);
void *__libc_memalign(size_t align, size_t size);

static _Atomic uint64_t *count;
static uint64_t refused;

__attribute__((constructor)) static void begin(void)
{
    const char *path = getenv("REFUSE_COUNT"), *number = getenv("REFUSE");
    int file = path ? open(path, O_RDWR) : -1;
    if (file < 0) return;
    void *shared = mmap(0, sizeof *count, PROT_READ | PROT_WRITE, MAP_SHARED, file, 0);
    close(file);
    if (shared == MAP_FAILED) return;
    refused = number ? strtoull(number, 0, 10) : 0;
    count = shared;
}

static int is_refused(void)
{
    if (!count || atomic_fetch_add(count, 1) + 1 != refused) return 0;
    errno = ENOMEM;
    return 1;
}

void *malloc(size_t size) { return is_refused() ? 0 : __libc_malloc(size); }
void *calloc(size_t number, size_t size) { return is_refused() ? 0 : __libc_calloc(number, size); }
void *realloc(void *old, size_t size) { return is_refused() ? 0 : __libc_realloc(old, size); }
void *memalign(size_t align, size_t size) { return is_refused() ? 0 : __libc_memalign(align, size); }
void *aligned_alloc(size_t align, size_t size) { return is_refused() ? 0 : __libc_memalign(align, size); }

int posix_memalign(void **to, size_t align, size_t size)
{
    void *made = is_refused() ? 0 : __libc_memalign(align, size);
    if (!made) return ENOMEM;
    *to = made;
    return 0;
}

int pthread_create(pthread_t *to, const pthread_attr_t *how, void *(*body)(void *), void *argument)
{
    static _Atomic uint64_t begun;
    static int (*create)(pthread_t *, const pthread_attr_t *, void *(*)(void *), void *);
    const char *most = getenv("REFUSE_THREADS");
    if (most && atomic_fetch_add(&begun, 1) >= strtoull(most, 0, 10)) return EAGAIN;
    if (!create) *(void **)&create = dlsym(RTLD_NEXT, "pthread_create");
    return create(to, how, body, argument);
}

static long number_of(const char *name)
{
    const char *text = getenv(name);
    return text ? atol(text) : -1;
}

ssize_t read(int file, void *to, size_t size)
{
    static _Atomic long reads;
    static ssize_t (*real)(int, void *, size_t);
    if (!real) *(void **)&real = dlsym(RTLD_NEXT, "read");
    if (file == 0 && atomic_fetch_add(&reads, 1) == number_of("FAIL_READ")) {
        errno = EIO;
        return -1;
    }
    return real(file, to, size);
}

ssize_t write(int file, const void *from, size_t size)
{
    static _Atomic long writes;
    static _Atomic int is_short;
    static ssize_t (*real)(int, const void *, size_t);
    if (!real) *(void **)&real = dlsym(RTLD_NEXT, "write");
    if (file != number_of("FAIL_STREAM") || size == 0) return real(file, from, size);
    long takes = number_of("FAIL_TAKES");
    if (!is_short && atomic_fetch_add(&writes, 1) != number_of("FAIL_WRITE")) return real(file, from, size);
    if (!is_short && takes > 0) {
        is_short = 1;
        return real(file, from, (size_t)takes < size ? (size_t)takes : size);
    }
    is_short = 0;
    errno = EIO;
    return -1;
}
