/* The instances of services. See instances.h. */
#include "instances.h"
#include "clock.h"
#include "descriptors.h"
#include "endpoints.h"
#include "groups.h"
#include "process.h"
#include <errno.h>
#include <signal.h>
#include <stdio.h>
#include <string.h>
#include <sys/epoll.h>
#include <sys/syscall.h>
#include <sys/wait.h>
#include <unistd.h>

enum {
    DESCRIPTORS = 5, /* that a start may take */
    SWEEP_EACH = 500 /* milliseconds */
};

/* ---- start ---- */

static bool open_cgroup(const struct instances *all, struct instance *it) {
    if (all->cgroups.folder < 0) return true;
    it->cgroup = cgroups_make(&all->cgroups, it->name);
    return it->cgroup >= 0;
}

/* Returns false, with errno, and then no process began. */
static bool begin_process(struct instances *all, struct instance *it) {
    int pidfd;
    if (!descriptors_are_there(DESCRIPTORS)) return false;
    if (it->listener < 0 && !endpoints_open(all, it)) return false;
    if (it->cgroup < 0 && !open_cgroup(all, it)) return false;
    uint64_t silence = 2 * (uint64_t)it->service->settings.period * all->tick * 1000; /* RS takes a silent instance for dead after two periods */
    const struct service *service = it->service;
    struct process process = {
        .services = all->services, .folder = service->label, .label = service->label, .input = -1, .output = service->output.to,
        .endpoint = it->endpoint, .endpoints = all->endpoints, .socket = it->theirs, .listener = it->listener, .cgroup = it->cgroup,
        .first_sub = service->server < 0 ? -1 : service->server * SERVER_SUBS, .silence = silence,
    };
    pid_t pid = process_begin(&process, &pidfd);
    if (pid < 0) return false;
    close(it->theirs);
    it->theirs = -1;
    it->pid = pid;
    watch_open(&it->pidfd, all->epoll, pidfd, EPOLLIN); /* otherwise instances_stir finds the end */
    return true;
}

/* Whether a resource is exhausted for a while by others, so that the service isn't to blame. */
static bool is_shortage(int error) {
    static const int shortages[] = {EAGAIN, ENOMEM, EMFILE, ENFILE, ENOSPC, EDQUOT, ENOBUFS, EROFS};
    for (size_t i = 0; i < sizeof shortages / sizeof *shortages; i++)
        if (error == shortages[i]) return true;
    return false;
}

/* A shortage is often over at once, so there are two tries before the pause that the keepers make. */
enum start instances_begin(struct instances *all, struct instance *it) {
    bool has_begun = !it->refused && (begin_process(all, it) || (is_shortage(errno) && begin_process(all, it)));
    int error = errno;
    const char *label = it->service->label, *why = it->refused ? it->refused : strerror(error);
    if (has_begun) {
        events_tell(all->events, LOG_INFO, "began: %s %s pid %d", label, it->endpoint, it->pid);
        return START_BEGUN;
    }
    if (!it->refused && is_shortage(error)) {
        if (!it->is_short) events_tell(all->events, LOG_WARN, "short: %s %s %s", label, it->endpoint, why);
        it->is_short = true;
        return START_SHORT;
    }
    events_tell(all->events, LOG_WARN, "nostart: %s %s %s", label, it->endpoint, why);
    return START_FAILED;
}

/* There is always one that is unused. */
struct instance *instances_add(struct instances *all, struct service *service, uint32_t generation, uint16_t slot) {
    struct instance *it = all->all;
    while (it->service) it++;
    *it = (struct instance){.pidfd.file = -1, .next = all->first, .service = service, .generation = generation, .slot = slot, .is_up = true,
                            .socket = -1, .theirs = -1, .listener = -1, .cgroup = -1};
    snprintf(it->endpoint, ENDPOINT, "%u/%u", generation, slot);
    snprintf(it->name, ENDPOINT, "%u.%u", generation, slot);
    all->first = it;
    service->since = clock_now();
    *service->status = '\0';
    return it;
}

/* ---- end ---- */

/* Signals the group. The number is the group's own, since its first process isn't reaped. A child that hasn't called setsid yet has no
 * group, so the child is signalled alone. */
static void signal_group(const struct instance *it, int number) {
    if (!it->pid) return;
    if (kill(-it->pid, number)) syscall(SYS_pidfd_send_signal, it->pidfd.file, number, NULL, 0);
}

void instances_terminate(const struct instance *it) {
    signal_group(it, SIGTERM);
    signal_group(it, SIGCONT); /* a stopped process sees no other signal */
}

/* The cgroup also has the processes that left the group. */
void instances_kill(struct instances *all, struct instance *it) {
    signal_group(it, SIGKILL);
    cgroups_kill(it->cgroup);
    it->is_killed = true;
    all->is_fresh = false;
}

/* Strays are looked for soon, but no more often than each SWEEP_EACH. */
static void ask_for_sweep(struct instances *all) {
    uint64_t now = clock_now(), soonest = all->swept_at + SWEEP_EACH;
    if (!all->sweep_at) all->sweep_at = all->swept_at && now < soonest ? soonest : now;
}

static void drop(struct instances *all, struct instance *gone) {
    struct instance **link = &all->first;
    while (*link != gone) link = &(*link)->next;
    *link = gone->next;
    watch_close(&gone->pidfd, all->epoll);
    events_tell(all->events, LOG_INFO, "gone: %s %s", gone->service->label, gone->endpoint);
    const int files[] = {gone->socket, gone->theirs, gone->cgroup};
    for (size_t i = 0; i < sizeof files / sizeof *files; i++)
        if (files[i] >= 0) close(files[i]);
    ask_for_sweep(all);
    all->sweeps_again = true;
    *gone = (struct instance){0};
}

void instances_reap(struct instances *all, struct instance *it) {
    waitid(P_PIDFD, (id_t)it->pidfd.file, &(siginfo_t){0}, WEXITED);
    drop(all, it);
}

void instances_end(struct instances *all, struct instance *it) {
    endpoints_close(all, it);
    it->is_up = false;
    it->service->since = clock_now();
    if (it->pid) return;
    if (it->cgroup >= 0) cgroups_remove(&all->cgroups, it->name);
    drop(all, it);
}

struct instance *instances_at(const struct instances *all, uint32_t generation, uint16_t slot) {
    for (struct instance *it = all->first; it; it = it->next)
        if (it->generation == generation && it->slot == slot && it->is_up) return it;
    return NULL;
}

struct instance *instances_by_pid(const struct instances *all, pid_t pid) {
    for (struct instance *it = all->first; it; it = it->next)
        if (it->pid == pid) return it;
    return NULL;
}

static enum cause cause_of(const siginfo_t *how) {
    if (how->si_code == CLD_EXITED || how->si_status == SIGABRT) return CAUSE_EXIT;
    switch (how->si_status) {
    case SIGSEGV: case SIGBUS: case SIGILL: case SIGFPE: case SIGTRAP: case SIGSYS: return CAUSE_EXCEPTION;
    default: return CAUSE_SIGNAL;
    }
}

void instances_stir(struct instances *all) {
    all->look_at = clock_now();
    ask_for_sweep(all);
    for (struct instance *it = all->first; it; it = it->next)
        if (it->pid && !it->is_over && !it->pidfd.wanted) it->pidfd.ready = EPOLLIN; /* the epoll had no memory for the descriptor */
}

bool instances_note_end(struct instances *all, struct instance *it) {
    siginfo_t how = {0};
    it->pidfd.ready = 0;
    if (waitid(P_PIDFD, (id_t)it->pidfd.file, &how, WEXITED | WNOHANG | WNOWAIT) || !how.si_pid) return false;
    it->is_over = true;
    it->cause = cause_of(&how);
    watch_for(&it->pidfd, all->epoll, 0);
    instances_stir(all);
    if (!it->is_up) return true;
    const char *what = how.si_code == CLD_EXITED ? "status" : "signal";
    events_tell(all->events, LOG_WARN, "died: %s %s cause %d %s %d", it->service->label, it->endpoint, it->cause, what, how.si_status);
    return true;
}

void instances_look_again(struct instances *all, uint64_t milliseconds) {
    uint64_t at = clock_now() + milliseconds;
    if (!all->look_at || at < all->look_at) all->look_at = at;
}

/* A process that left the group of a dead instance becomes a child of dsrs when its parent ends, which may be a little later. One that just
 * executes a program has no environment meanwhile. */
void instances_sweep(struct instances *all) {
    if (!all->sweep_at || clock_now() < all->sweep_at) return;
    all->swept_at = clock_now();
    all->sweep_at = groups_kill_strays(all) || all->sweeps_again ? all->swept_at + SWEEP_EACH : 0;
    all->sweeps_again = false;
}

uint64_t instances_due(const struct instances *all) {
    bool is_sweep_first = all->sweep_at && (!all->look_at || all->sweep_at < all->look_at);
    return is_sweep_first ? all->sweep_at : all->look_at;
}
