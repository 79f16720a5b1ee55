/* Preloaded into a program: makes single calls fail, as environment variables say. FAIL_MEMORY=N fails the Nth allocation, FAIL_IO=N
   the Nth read or write with EIO, FAIL_ACCEPT=N the Nth accept with EBADF, after which a server accepts no more, and FAIL_THREAD=N the
   start of the Nth thread with EAGAIN. SHORT_IO=N lets each read or write from the Nth on move at most one byte. With COUNT_CALLS=FILE,
   the number of allocations and the number of reads and writes are written to FILE at exit. */
#define _GNU_SOURCE
#include <dlfcn.h>
#include <errno.h>
#include <fcntl.h>
#include <pthread.h>
#include <stdarg.h>
#include <stdatomic.h>
#include <stdio.h>
#include <stdlib.h>
#include <string.h>
#include <sys/socket.h>
#include <sys/syscall.h>
#include <sys/uio.h>
#include <unistd.h>

static atomic_long allocations, moves, accepts, threads;
static long fail_memory, fail_io, short_io, fail_accept, fail_thread;
static int ready;

static long number_in(const char *name) {
    const char *text = getenv(name);
    return text ? strtol(text, 0, 10) : 0;
}

__attribute__((constructor)) static void begin(void) {
    fail_memory = number_in("FAIL_MEMORY");
    fail_io = number_in("FAIL_IO");
    short_io = number_in("SHORT_IO");
    fail_accept = number_in("FAIL_ACCEPT");
    fail_thread = number_in("FAIL_THREAD");
    ready = 1;
}

__attribute__((destructor)) static void end(void) {
    const char *path = getenv("COUNT_CALLS");
    char line[64];
    ready = 0;
    if (path) {
        int file = open(path, O_WRONLY | O_CREAT | O_TRUNC, 0600);
        int length = snprintf(line, sizeof line, "%ld %ld\n", (long)allocations, (long)moves);
        if (file >= 0 && length > 0 && write(file, line, (size_t)length) < 0) abort();
        close(file);
    }
}

/* a program with threads exits by _exit, which runs no destructor, so the counts are written here */
void _exit(int status) {
    end();
    for (;;) syscall(SYS_exit_group, status);
}

extern void *__libc_malloc(size_t);
extern void *__libc_calloc(size_t, size_t);
extern void *__libc_realloc(void *, size_t);
extern void *__libc_memalign(size_t, size_t);

/* counts an allocation, and returns whether it must fail; sets errno then */
static int refused(void) {
    return ready && ++allocations == fail_memory && (errno = ENOMEM);
}

void *malloc(size_t size) { return refused() ? 0 : __libc_malloc(size); }
void *calloc(size_t count, size_t size) { return refused() ? 0 : __libc_calloc(count, size); }
void *realloc(void *old, size_t size) { return refused() ? 0 : __libc_realloc(old, size); }
void *aligned_alloc(size_t to, size_t size) { return refused() ? 0 : __libc_memalign(to, size); }
int posix_memalign(void **at, size_t to, size_t size) {
    if (refused()) return ENOMEM;
    *at = __libc_memalign(to, size);
    return *at ? 0 : ENOMEM;
}

/* counts a read or write of `size` bytes, and returns how many of them it may move; 0 if it must fail */
static size_t moved(size_t size) {
    long number = ready ? ++moves : 0;
    if (number && number == fail_io) return 0;
    return number && short_io && number >= short_io && size > 1 ? 1 : size;
}

#define MOVES(NAME, BUFFER, MORE, CALL_MORE)                                                   \
    ssize_t NAME(int file, BUFFER at, size_t size MORE) {                                      \
        static ssize_t (*next)(int, BUFFER, size_t MORE);                                      \
        size_t most = size ? moved(size) : 0;                                                  \
        if (size && !most) return errno = EIO, -1;                                             \
        if (!next) *(void **)&next = dlsym(RTLD_NEXT, #NAME);                                  \
        return next(file, at, most CALL_MORE);                                                 \
    }
#define NOTHING
#define WITH_FLAGS , int flags
#define THE_FLAGS , flags
MOVES(read, void *, NOTHING, NOTHING)
MOVES(write, const void *, NOTHING, NOTHING)
MOVES(recv, void *, WITH_FLAGS, THE_FLAGS)
MOVES(send, const void *, WITH_FLAGS, THE_FLAGS)

int accept4(int file, struct sockaddr *at, socklen_t *size, int flags) {
    static int (*next)(int, struct sockaddr *, socklen_t *, int);
    if (ready && ++accepts == fail_accept) return errno = EBADF, -1;
    if (!next) *(void **)&next = dlsym(RTLD_NEXT, "accept4");
    return next(file, at, size, flags);
}

int pthread_create(pthread_t *at, const pthread_attr_t *how, void *(*what)(void *), void *with) {
    static int (*next)(pthread_t *, const pthread_attr_t *, void *(*)(void *), void *);
    if (ready && ++threads == fail_thread) return EAGAIN;
    if (!next) *(void **)&next = dlsym(RTLD_NEXT, "pthread_create");
    return next(at, how, what, with);
}
