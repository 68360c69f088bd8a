/* The log program of a service. See logger.h. */
#include "logger.h"
#include "clock.h"
#include "process.h"
#include <errno.h>
#include <limits.h>
#include <signal.h>
#include <stdio.h>
#include <string.h>
#include <sys/epoll.h>
#include <sys/wait.h>
#include <unistd.h>

enum { PAUSE = 1000 /* milliseconds between the end and the next start */ };

void logger_open(struct logger *logger, int input) {
    *logger = (struct logger){.pidfd.file = -1, .input = input, .due = input < 0 ? 0 : clock_now()};
}

void logger_end(struct logger *logger, uint64_t grace) {
    logger->ends = true;
    logger->due = logger->pid ? clock_now() + grace : 0;
}

/* A child that hasn't made a group yet is killed alone. */
static void end_group(const struct logger *logger) {
    kill(-logger->pid, SIGKILL);
    kill(logger->pid, SIGKILL);
}

/* One that can't be watched is killed, and tried again. */
static void begin(struct logger *logger, const char *services, const char *label, int epoll, struct events *events) {
    char folder[PATH_MAX];
    snprintf(folder, sizeof folder, "%s/log", label);
    struct process process = {.services = services, .folder = folder, .label = label, .input = logger->input, .output = -1};
    int pidfd;
    logger->pid = process_begin(&process, &pidfd);
    bool began = logger->pid > 0;
    if (began && watch_open(&logger->pidfd, epoll, pidfd, EPOLLIN)) {
        logger->due = 0;
        return;
    }
    events_tell(events, LOG_WARN, "nolog: %s %s", label, strerror(errno));
    if (began) end_group(logger), waitpid(logger->pid, NULL, 0);
    watch_close(&logger->pidfd, epoll);
    logger->pid = 0;
    logger->due = clock_now() + PAUSE;
}

/* The group is killed before the process is reaped, since afterwards the number may be another's. */
static void reap(struct logger *logger, const char *label, int epoll, struct events *events) {
    siginfo_t how = {0};
    if (waitid(P_PIDFD, (id_t)logger->pidfd.file, &how, WEXITED | WNOHANG | WNOWAIT) || !how.si_pid) return;
    end_group(logger);
    waitid(P_PIDFD, (id_t)logger->pidfd.file, &how, WEXITED);
    watch_close(&logger->pidfd, epoll);
    const char *what = how.si_code == CLD_EXITED ? "status" : "signal";
    if (!logger->ends) events_tell(events, LOG_WARN, "nolog: %s %s %d", label, what, how.si_status);
    logger->pid = 0;
    logger->due = logger->ends ? 0 : clock_now() + PAUSE;
}

bool logger_turn(struct logger *logger, const char *services, const char *label, int epoll, struct events *events) {
    if (logger->pidfd.ready) reap(logger, label, epoll, events);
    bool is_due = logger->due && clock_now() >= logger->due;
    if (is_due && !logger->ends) begin(logger, services, label, epoll, events);
    else if (is_due) end_group(logger), logger->due = 0;
    return logger->pid || logger->due;
}
