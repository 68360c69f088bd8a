/* A library that is preloaded into a supervisor: of the calls below, REFUSALS calls fail, from number REFUSE on. The supervisor's
 * children aren't affected. The file REFUSED is made once a call failed. While the file READONLY is there, each pwrite fails. While the
 * file SHORT is there, each call fails whose name it has. */
#include <dlfcn.h>
#include <errno.h>
#include <fcntl.h>
#include <stdarg.h>
#include <stdbool.h>
#include <stdlib.h>
#include <string.h>
#include <sys/epoll.h>
#include <sys/signalfd.h>
#include <sys/socket.h>
#include <sys/stat.h>
#include <sys/syscall.h>
#include <sys/timerfd.h>
#include <unistd.h>

static long left, more; /* calls until the first that fails; how many fail then */
static char made[4096], readonly[4096], short_of[4096];

void *__libc_malloc(size_t), *__libc_calloc(size_t, size_t), *__libc_realloc(void *, size_t);

static void keep(char path[4096], const char *given) {
    for (size_t i = 0; given && given[i] && i < 4095; i++) path[i] = given[i];
}

__attribute__((constructor)) static void begin(void) {
    const char *number = getenv("REFUSE");
    keep(made, getenv("REFUSED"));
    keep(readonly, getenv("READONLY"));
    keep(short_of, getenv("SHORT"));
    left = number ? atol(number) : 0;
    more = number ? atol(getenv("REFUSALS")) : 0;
    unsetenv("LD_PRELOAD");
    unsetenv("REFUSE");
    unsetenv("REFUSED");
    unsetenv("REFUSALS");
    unsetenv("READONLY");
    unsetenv("SHORT");
}

static int refuses(int error) {
    if (!more || left-- > 0) return 0;
    left = 0;
    more--;
    int file = open(made, O_WRONLY | O_CREAT | O_CLOEXEC, 0600);
    if (file >= 0) close(file);
    errno = error;
    return 1;
}

void *malloc(size_t size) { return refuses(ENOMEM) ? NULL : __libc_malloc(size); }
void *calloc(size_t count, size_t size) { return refuses(ENOMEM) ? NULL : __libc_calloc(count, size); }
void *realloc(void *old, size_t size) { return refuses(ENOMEM) ? NULL : __libc_realloc(old, size); }

/* Whether the file SHORT has the name of a call. */
static int is_short(const char *name, int error) {
    char named[32] = "";
    int file = *short_of ? open(short_of, O_RDONLY | O_CLOEXEC) : -1;
    if (file < 0) return 0;
    ssize_t length = read(file, named, sizeof named - 1);
    close(file);
    errno = error == EADDRINUSE ? ENOSPC : error;
    return length > 0 && !strcmp(named, name);
}

/* Passes a call on, unless it is to fail. */
#define PASSED(type, name, error, parameters, arguments)                                                                     \
    type name parameters {                                                                                                   \
        type (*real) parameters = (type(*) parameters)dlsym(RTLD_NEXT, #name);                                               \
        return is_short(#name, error) || refuses(error) ? -1 : real arguments;                                               \
    }

PASSED(int, socketpair, EMFILE, (int domain, int type, int protocol, int pair[2]), (domain, type, protocol, pair))
PASSED(int, socket, EMFILE, (int domain, int type, int protocol), (domain, type, protocol))
PASSED(int, bind, EADDRINUSE, (int file, const struct sockaddr *address, socklen_t length), (file, address, length))
PASSED(int, listen, EMFILE, (int file, int backlog), (file, backlog))
PASSED(int, pipe2, EMFILE, (int pair[2], int flags), (pair, flags))
PASSED(int, epoll_create1, EMFILE, (int flags), (flags))
PASSED(int, epoll_ctl, ENOSPC, (int file, int operation, int of, struct epoll_event *event), (file, operation, of, event))
PASSED(int, signalfd, EMFILE, (int file, const sigset_t *set, int flags), (file, set, flags))
PASSED(int, timerfd_create, EMFILE, (int clock, int flags), (clock, flags))
PASSED(int, accept4, EMFILE, (int file, struct sockaddr *address, socklen_t *length, int flags), (file, address, length, flags))
PASSED(int, mkdir, ENOSPC, (const char *path, mode_t mode), (path, mode))
PASSED(int, chmod, EPERM, (const char *path, mode_t mode), (path, mode))
PASSED(int, setsockopt, ENOMEM, (int file, int level, int name, const void *value, socklen_t length), (file, level, name, value, length))

/* Of the calls that have no function, those that fork are refused. */
long syscall(long number, ...) {
    long (*real)(long, ...) = (long (*)(long, ...))dlsym(RTLD_NEXT, "syscall"), given[6];
    bool forks = number == SYS_clone || number == SYS_clone3;
    if (forks && (is_short("clone", EAGAIN) || refuses(EAGAIN))) return -1;
    va_list list;
    va_start(list, number);
    for (int i = 0; i < 6; i++) given[i] = va_arg(list, long);
    va_end(list);
    return real(number, given[0], given[1], given[2], given[3], given[4], given[5]);
}

ssize_t pwrite(int file, const void *bytes, size_t length, off_t at) {
    ssize_t (*real)(int, const void *, size_t, off_t) = (ssize_t(*)(int, const void *, size_t, off_t))dlsym(RTLD_NEXT, "pwrite");
    bool is_readonly = *readonly && !access(readonly, F_OK);
    if (is_readonly) errno = EROFS;
    return is_readonly || refuses(ENOSPC) ? -1 : real(file, bytes, length, at);
}
