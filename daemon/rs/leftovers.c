/* Leftover processes of a run that was killed. See leftovers.h. */
#include "leftovers.h"
#include "clock.h"
#include "proc.h"
#include <dirent.h>
#include <errno.h>
#include <limits.h>
#include <poll.h>
#include <signal.h>
#include <stdio.h>
#include <stdlib.h>
#include <sys/socket.h>
#include <sys/stat.h>
#include <sys/syscall.h>
#include <sys/un.h>
#include <unistd.h>

enum { PATIENCE = 10 * SECOND, PAUSE_FIRST = 10, PAUSE_MOST = 500 /* milliseconds between two looks */ };

/* Whether a process sees the same folder at this path, and not one of the same name in a container. */
static bool sees(pid_t pid, const char *endpoints) {
    char path[PATH_MAX];
    struct stat ours, theirs;
    snprintf(path, sizeof path, "/proc/%d/root%s", pid, endpoints);
    return !stat(endpoints, &ours) && !stat(path, &theirs) && ours.st_dev == theirs.st_dev && ours.st_ino == theirs.st_ino;
}

/* Whether a process is an ancestor of dsrs: a service may start its supervisor anew. */
static bool is_above(pid_t pid) {
    struct proc_seen seen = {.parent = getpid()};
    while (seen.parent > 1 && seen.parent != pid)
        if (!proc_look(seen.parent, &seen)) return false;
    return seen.parent == pid;
}

/* Kills a process if an earlier run began it. The descriptor holds the number meanwhile. Returns whether the process was killed. */
static bool kill_left(pid_t pid, const char *endpoints) {
    uint32_t generation;
    uint16_t slot;
    struct proc_seen seen;
    int file = (int)syscall(SYS_pidfd_open, pid, 0);
    if (file < 0) return false;
    bool is_left = proc_endpoint(pid, endpoints, &generation, &slot) && sees(pid, endpoints) && !is_above(pid);
    is_left = is_left && proc_look(pid, &seen) && seen.state != 'Z' && !syscall(SYS_pidfd_send_signal, file, SIGKILL, NULL, 0);
    close(file);
    return is_left;
}

int leftovers_kill(const char *endpoints) {
    DIR *folder = opendir("/proc");
    int count = 0;
    for (struct dirent *entry; folder && (entry = readdir(folder));) {
        pid_t pid = atoi(entry->d_name);
        count += pid > 0 && kill_left(pid, endpoints);
    }
    if (folder) closedir(folder);
    return count;
}

/* Whether a process has the listening socket at a path. */
static bool is_held(const char *folder, const char *name) {
    struct sockaddr_un address = {.sun_family = AF_UNIX};
    int length = snprintf(address.sun_path, sizeof address.sun_path, "%s/%s", folder, name);
    int it = socket(AF_UNIX, SOCK_SEQPACKET | SOCK_NONBLOCK | SOCK_CLOEXEC, 0);
    if (it < 0) return false;
    bool held = length < (int)sizeof address.sun_path && (!connect(it, (struct sockaddr *)&address, sizeof address) || errno == EAGAIN);
    close(it);
    return held;
}

static bool is_one_held(const char *endpoints) {
    DIR *folder = opendir(endpoints);
    unsigned generation, slot;
    bool held = false;
    for (struct dirent *entry; folder && !held && (entry = readdir(folder));)
        held = sscanf(entry->d_name, "%u.%u", &generation, &slot) == 2 && is_held(endpoints, entry->d_name);
    if (folder) closedir(folder);
    return held;
}

bool leftovers_end(const char *endpoints, struct events *events) {
    uint64_t until = clock_now() + PATIENCE;
    int killed = 0, pause = PAUSE_FIRST;
    for (int count; (count = leftovers_kill(endpoints)) || is_one_held(endpoints); pause = pause < PAUSE_MOST ? 2 * pause : PAUSE_MOST) {
        if (!killed && count) events_tell(events, LOG_WARN, "left: %d processes of an earlier run are killed", count);
        killed += count;
        if (clock_now() > until) {
            events_tell(events, LOG_WARN, "left: an earlier run has processes that don't end");
            return false;
        }
        poll(NULL, 0, pause);
    }
    return true;
}
