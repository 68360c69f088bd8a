/* The tasks of the keepers. See tasks.h. */
#include "tasks.h"
#include "clock.h"
#include "groups.h"
#include "leftovers.h"

enum { CLEAR_AGAIN = 500 /* milliseconds until leftovers are looked for again */ };

/* Returns whether the service accepts the note. */
static bool note(struct rs *rs, size_t service, enum ds_keeper_note_kind kind, uint64_t value) {
    return !ds_keeper_note(&rs->store, service, kind, value);
}

/* A child or the time may have changed the result of each scan. */
static void note_changes(struct rs *rs) {
    struct instances *all = &rs->instances;
    if (!all->look_at || clock_now() < all->look_at) return;
    all->look_at = 0;
    all->is_fresh = false;
    for (size_t i = 0; i < rs->services; i++) note(rs, i, DS_KEEPER_CHANGED, 0);
}

void tasks_note_end(struct rs *rs, const struct instance *it) { note(rs, it->service->number, DS_KEEPER_EXITED, 0); }

void tasks_hurry(struct rs *rs) {
    for (size_t i = 0; i < rs->services; i++) note(rs, i, DS_KEEPER_SHORTENED, clock_now());
}

/* ---- one task ---- */

/* Nothing is forked before the leftovers of all services are gone. One look is for all. */
static bool clear(struct rs *rs, size_t service) {
    struct instances *all = &rs->instances;
    if (!all->is_clear && !all->is_fresh) all->is_fresh = true, all->is_clear = !leftovers_kill(all->endpoints);
    rs->is_busy = false;
    if (all->is_clear) return note(rs, service, DS_KEEPER_CLEARED, 0);
    instances_look_again(all, CLEAR_AGAIN);
    return note(rs, service, DS_KEEPER_SCANNED, DS_KEEPER_DYING);
}

/* Begins the process of an instance. A fault is reported as the instance's death. If RS can't learn of that now, or a resource is short,
 * the start is tried again. */
static bool begin(struct rs *rs, size_t service, struct instance *it) {
    enum start how = instances_begin(&rs->instances, it);
    if (how == START_BEGUN) return note(rs, service, DS_KEEPER_BEGUN, (uint64_t)it->pid);
    return (how == START_FAILED && rs_fail(rs, it)) || note(rs, service, DS_KEEPER_FAILED, clock_now());
}

static struct instance *instance_of(const struct instances *all, const struct ds_keeper_task *task) {
    return task->leader ? instances_by_pid(all, (pid_t)task->leader) : instances_at(all, (uint32_t)task->generation, task->slot);
}

/* Returns whether another task may follow. A death that RS can't learn now, for lack of memory, holds up the tasks after it. */
static bool carry_out(struct rs *rs, const struct ds_keeper_task *task) {
    struct instances *all = &rs->instances;
    struct instance *it = instance_of(all, task);
    size_t service = task->service;
    if (!it && task->kind != DS_KEEPER_CLEAR) return false;
    switch ((enum ds_keeper_task_kind)task->kind) {
    case DS_KEEPER_WAIT: return false;
    case DS_KEEPER_CLEAR: return clear(rs, service);
    case DS_KEEPER_FORK: return begin(rs, service, it);
    case DS_KEEPER_REPORT: return rs_report(rs, it);
    case DS_KEEPER_TERMINATE: instances_terminate(it); return note(rs, service, DS_KEEPER_TERMINATED, 0);
    case DS_KEEPER_KILL: instances_kill(all, it); return note(rs, service, DS_KEEPER_KILLED, 0);
    case DS_KEEPER_SCAN: return note(rs, service, DS_KEEPER_SCANNED, groups_scan(all, it));
    case DS_KEEPER_REAP: instances_reap(all, it); rs->is_busy = false; return note(rs, service, DS_KEEPER_REAPED, 0);
    }
    return false;
}

/* ---- all tasks ---- */

void tasks_turn(struct rs *rs) {
    struct ds_keeper_task task = {0};
    note_changes(rs);
    while (!ds_keeper_task(&rs->store, clock_now(), &task) && carry_out(rs, &task)) {}
    instances_sweep(&rs->instances);
}

uint64_t tasks_due(struct rs *rs) {
    uint64_t due = instances_due(&rs->instances), at;
    if (ds_keeper_due(&rs->store, clock_now(), &at) || at == UINT64_MAX) return due;
    return due && due < at ? due : at;
}
