/* Preloaded into a program: while the file that FAIL_ACCEPT names exists, each accept fails with EBADF. While the file that FAIL_WAIT
   names exists, each wait for events but the first one fails with EBADF. A server takes EBADF as an error that stays. */
#define _GNU_SOURCE
#include <dlfcn.h>
#include <errno.h>
#include <stdlib.h>
#include <sys/epoll.h>
#include <sys/socket.h>
#include <unistd.h>

static int waits;

static int is_there(const char *name) {
    const char *path = getenv(name);
    return path && access(path, F_OK) == 0;
}

int accept4(int file, struct sockaddr *at, socklen_t *size, int flags) {
    static int (*next)(int, struct sockaddr *, socklen_t *, int);
    if (is_there("FAIL_ACCEPT")) return errno = EBADF, -1;
    if (!next) *(void **)&next = dlsym(RTLD_NEXT, "accept4");
    return next(file, at, size, flags);
}

int epoll_wait(int file, struct epoll_event *events, int most, int milliseconds) {
    static int (*next)(int, struct epoll_event *, int, int);
    if (is_there("FAIL_WAIT") && waits++ > 0) return errno = EBADF, -1;
    if (!next) *(void **)&next = dlsym(RTLD_NEXT, "epoll_wait");
    return next(file, events, most, milliseconds);
}
