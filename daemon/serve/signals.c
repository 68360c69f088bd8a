/* The first steps of a server. See signals.h. */
#include "signals.h"
#include <signal.h>
#include <sys/signalfd.h>
#include <time.h>

int signals_open(const int signals[], size_t count) {
    sigset_t some;
    sigemptyset(&some);
    for (size_t i = 0; i < count; i++) sigaddset(&some, signals[i]);
    sigprocmask(SIG_BLOCK, &some, NULL);
    signal(SIGPIPE, SIG_IGN);
    signal(SIGCHLD, SIG_DFL); /* ignored, the signal would have children reaped unseen */
    return signalfd(-1, &some, SFD_NONBLOCK | SFD_CLOEXEC);
}

uint64_t run_number(void) {
    struct timespec now;
    clock_gettime(CLOCK_REALTIME, &now);
    return (uint64_t)now.tv_sec * 1000000000 + (uint64_t)now.tv_nsec;
}
