/* Processes besides the first ones. See groups.h. */
#include "groups.h"
#include "clock.h"
#include "proc.h"
#include <signal.h>
#include <sys/wait.h>
#include <unistd.h>

enum {
    AGAIN = 10,        /* milliseconds until the next look, if nobody reports an end */
    DYING = 2 * SECOND /* that a killed process may take to die */
};

/* Notes that every first process that has ended is alone, or that none is. Returns whether one has ended. */
static bool note_alone(struct instances *all, bool is_alone) {
    bool found = false;
    for (struct instance *it = all->first; it; it = it->next) {
        it->is_alone = it->is_over && is_alone;
        found |= it->is_over;
    }
    return found;
}

/* Returns the instance in whose group a child is beside the first process, which has ended; or NULL. */
static struct instance *left_beside(const struct instances *all, pid_t child) {
    pid_t group = getpgid(child);
    for (struct instance *it = all->first; it; it = it->next)
        if (it->is_over && it->pid == group && it->pid != child) return it;
    return NULL;
}

static bool reap(pid_t child) {
    siginfo_t how = {0};
    return !waitid(P_PID, (id_t)child, &how, WEXITED | WNOHANG) && how.si_pid;
}

/* A dying child has no environment any more, also when dsrs killed the child a moment ago. Returns whether a child may be dying. */
static bool note_dying(struct instances *all) {
    bool found = false;
    for (struct instance *it = all->first; it; it = it->next) {
        bool may_be = it->is_over && it->stray_at && clock_now() < it->stray_at + DYING;
        it->is_alone &= !may_be;
        found |= may_be;
    }
    return found;
}

/* Whether a process is of an instance whose group isn't empty, or a log program, or lives in the session or the group of one. */
static bool is_known(const struct instances *all, pid_t pid, const struct proc_seen *seen) {
    for (const struct logger *it = all->loggers; it; it = it->next)
        if (it->pid == pid || (it->pid == seen->group && seen->state != 'Z')) return true;
    for (const struct instance *it = all->first; it; it = it->next)
        if (it->pid == pid || (it->pid == seen->session && seen->state != 'Z' && !it->is_alone)) return true;
    return false;
}

/* Whether a process is known to be of an instance that was killed, or has an empty group, or is gone; and of which one. */
static bool is_stray(const struct instances *all, pid_t pid, struct instance **of) {
    uint32_t generation;
    uint16_t slot;
    if (!proc_endpoint(pid, all->endpoints, &generation, &slot)) return false;
    for (*of = all->first; *of && ((*of)->generation != generation || (*of)->slot != slot);) *of = (*of)->next;
    return !*of || (*of)->is_killed || (*of)->is_alone;
}

/* Kills a stray. Returns false if the process isn't a stray, or can't be killed. */
static bool kill_stray(struct instances *all, pid_t pid) {
    struct instance *it;
    if (!is_stray(all, pid, &it) || kill(pid, SIGKILL)) return false;
    events_tell(all->events, LOG_WARN, "stray: pid %d is killed", pid);
    if (it) it->is_alone = false, it->stray_at = clock_now();
    return true;
}

/* Children that can't be listed now are listed later. */
bool groups_kill_strays(struct instances *all) {
    struct text numbers = {0};
    struct proc_seen seen;
    bool found = !proc_children(&numbers);
    size_t at = 0;
    for (pid_t pid; proc_next(&numbers, &at, &pid);) {
        if (!proc_look(pid, &seen) || is_known(all, pid, &seen)) continue;
        bool lives = seen.state != 'Z';
        if (lives && !seen.has_memory) found |= note_dying(all);
        else if (!lives || kill_stray(all, pid)) found |= reap(pid) || lives;
    }
    text_free(&numbers);
    return found;
}

/* Children of a process that is reaped here become children of dsrs at its end, maybe after the listing: then the groups are looked at
 * again. Returns false if they are to be looked at again soon. */
static bool look(struct instances *all) {
    bool is_done = true, again = note_alone(all, true);
    while (again) {
        struct text numbers = {0};
        size_t at = 0;
        again = false;
        is_done = proc_children(&numbers);
        note_alone(all, is_done);
        for (pid_t child; proc_next(&numbers, &at, &child);) {
            struct instance *it = left_beside(all, child);
            if (!it) continue;
            it->is_alone = false;
            again |= is_done && reap(child);
        }
        if (!again && groups_kill_strays(all)) is_done = false;
        text_free(&numbers);
    }
    return is_done;
}

/* Removes the cgroup of an instance once nothing is in there. Returns false if something is. Processes that left the group have no grace
 * period of their own. Nobody reports their end, so the cgroup is looked at again. */
static bool remove_cgroup(struct instances *all, const struct instance *it) {
    if (it->cgroup < 0 || cgroups_remove(&all->cgroups, it->name)) return true;
    cgroups_kill(it->cgroup);
    instances_look_again(all, AGAIN);
    return false;
}

/* One look is for all instances, until something happens. A group that was empty stays empty. */
enum ds_keeper_scan groups_scan(struct instances *all, struct instance *it) {
    if (!it->is_alone && !all->is_fresh) {
        all->is_fresh = true;
        if (!look(all)) instances_look_again(all, AGAIN);
    }
    if (it->is_alone && remove_cgroup(all, it)) return DS_KEEPER_NOTHING;
    return it->is_killed ? DS_KEEPER_DYING : DS_KEEPER_LIVING;
}
