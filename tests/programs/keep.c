/* A small supervisor of real processes: RS, its store and the keepers decide, and the program forks, signals, scans and reaps. Two services
 * begin. One is killed and restarted, the other ignores SIGTERM and is killed after its grace period, and both end, within 60 s. */
#define _GNU_SOURCE
#include "ds.h"
#include <ctype.h>
#include <dirent.h>
#include <inttypes.h>
#include <signal.h>
#include <stdbool.h>
#include <stdio.h>
#include <stdlib.h>
#include <string.h>
#include <sys/prctl.h>
#include <sys/wait.h>
#include <time.h>
#include <unistd.h>

enum { MORTAL, STUBBORN, SERVICES, TICK = 10, GRACE = 3000, SECONDS = 60 /* TICK, GRACE: milliseconds */ };

static const char settings[] =
    "slots = 4\n"
    "[[service]]\nlabel = \"mortal\"\nclass = \"server\"\nlimit = 100\n"
    "[[service]]\nlabel = \"stubborn\"\nclass = \"server\"\nlimit = 100\n";

/* Each has a process besides its leader. */
static const char *const scripts[SERVICES] = {"sleep 1000 & wait", "trap '' TERM; sleep 1000 & while :; do wait; done"};

static struct leader {
    pid_t number; /* 0: none */
    bool has_exited, is_killed;
    uint32_t cause;
    uint64_t generation, ended_at;
} leaders[SERVICES];

static struct ds_handle store = DS_CLOSED;
static struct ds_answer answer;
static uint64_t began_at, file;

static void stop(const char *why) {
    printf("stopped: %s\n", why);
    for (size_t k = 0; k < SERVICES; k++)
        if (leaders[k].number) kill(-leaders[k].number, SIGKILL);
    exit(1);
}

static void must(uint32_t word, const char *what) {
    if (word) stop(what);
}

static uint64_t clock_now(void) {
    struct timespec it;
    clock_gettime(CLOCK_MONOTONIC, &it);
    return (uint64_t)it.tv_sec * 1000 + (uint64_t)it.tv_nsec / 1000000 - began_at;
}

/* ---- what is found ---- */

/* Reads a process's state, parent and group. */
static bool read_process(long number, char *state, int *parent, int *group) {
    char path[64], text[512];
    snprintf(path, sizeof path, "/proc/%ld/stat", number);
    FILE *stat = fopen(path, "r");
    if (!stat) return false;
    size_t length = fread(text, 1, sizeof text - 1, stat);
    fclose(stat);
    text[length] = '\0';
    char *rest = strrchr(text, ')');
    return rest && sscanf(rest + 1, " %c %d %d", state, parent, group) == 3;
}

static bool is_leader(long number) {
    for (size_t k = 0; k < SERVICES; k++)
        if (leaders[k].number == number) return true;
    return false;
}

/* Counts the processes of a group besides its leader. Those that ended are children of this process, a subreaper, and are reaped. */
static size_t scan(pid_t leader) {
    DIR *proc = opendir("/proc");
    size_t found = 0;
    if (!proc) stop("/proc");
    for (struct dirent *it; (it = readdir(proc));) {
        char state;
        int parent, group;
        long number = isdigit((unsigned char)*it->d_name) ? atol(it->d_name) : 0;
        if (!number || number == leader || !read_process(number, &state, &parent, &group) || group != leader) continue;
        if (state == 'Z' && parent == getpid() && !is_leader(number)) waitpid((pid_t)number, NULL, WNOHANG);
        else found++;
    }
    closedir(proc);
    return found;
}

/* ---- tasks ---- */

static void note(size_t k, enum ds_keeper_note_kind kind, uint64_t value) { must(ds_keeper_note(&store, k, kind, value), "a note"); }

static void signal_group(pid_t leader, int number) {
    if (kill(-leader, number)) kill(leader, number); /* before setsid there is no group yet */
}

static void fork_leader(size_t k, uint64_t generation) {
    if (leaders[k].number) stop("a second leader");
    pid_t number = fork();
    if (number == 0) {
        setsid();
        execl("/bin/sh", "sh", "-c", scripts[k], (char *)NULL);
        _exit(127);
    }
    if (number < 0) {
        note(k, DS_KEEPER_FAILED, clock_now());
        return;
    }
    leaders[k] = (struct leader){.number = number, .generation = generation};
    note(k, DS_KEEPER_BEGUN, (uint64_t)number);
}

static void carry_out(const struct ds_keeper_task *task) {
    size_t k = task->service;
    struct leader *it = &leaders[k];
    if (task->leader && (pid_t)task->leader != it->number) stop("a task of another leader");
    switch ((enum ds_keeper_task_kind)task->kind) {
    case DS_KEEPER_WAIT: break;
    case DS_KEEPER_CLEAR: note(k, DS_KEEPER_CLEARED, 0); break; /* this program has no earlier run */
    case DS_KEEPER_FORK: fork_leader(k, task->generation); break;
    case DS_KEEPER_REPORT: must(ds_keeper_report(&store, k, it->cause, clock_now() / TICK, clock_now(), &answer), "a report"); break;
    case DS_KEEPER_TERMINATE:
        signal_group(it->number, SIGTERM), signal_group(it->number, SIGCONT);
        note(k, DS_KEEPER_TERMINATED, 0);
        break;
    case DS_KEEPER_KILL:
        signal_group(it->number, SIGKILL);
        it->is_killed = true;
        note(k, DS_KEEPER_KILLED, 0);
        break;
    case DS_KEEPER_SCAN:
        note(k, DS_KEEPER_SCANNED, !scan(it->number) ? DS_KEEPER_NOTHING : it->is_killed ? DS_KEEPER_DYING : DS_KEEPER_LIVING);
        break;
    case DS_KEEPER_REAP:
        if (waitpid(it->number, NULL, 0) != it->number) stop("reaping");
        *it = (struct leader){.ended_at = clock_now()};
        note(k, DS_KEEPER_REAPED, 0);
        break;
    }
}

/* Notes leaders that exited, and that a scan of what they left may find something else. */
static void look(void) {
    for (size_t k = 0; k < SERVICES; k++) {
        siginfo_t how = {0};
        struct leader *it = &leaders[k];
        if (!it->number) continue;
        if (it->has_exited) {
            note(k, DS_KEEPER_CHANGED, 0);
        } else if (!waitid(P_PID, (id_t)it->number, &how, WEXITED | WNOHANG | WNOWAIT) && how.si_pid) {
            it->has_exited = true;
            it->cause = how.si_code == CLD_EXITED ? DS_RS_EXIT : DS_RS_KILLED;
            note(k, DS_KEEPER_EXITED, 0);
        }
    }
}

/* Reports an event, whose start may have to wait for the file. */
static void event(enum ds_rs_event_kind kind, const char *label) {
    struct ds_rs_event it = {.tick = clock_now() / TICK, .kind = kind, .label_length = (uint8_t)strlen(label)};
    memcpy(it.label, label, strlen(label));
    must(ds_keeper_event(&store, &it, clock_now() + GRACE, &answer), "an event");
    if (answer.word == DS_REFUSED && answer.refusal == DS_BEHIND) {
        must(ds_keeper_to_write(&store, &file), "a generation to write"); /* a real one goes to disk here */
        must(ds_keeper_written(&store, file), "a generation");
        must(ds_keeper_event(&store, &it, clock_now() + GRACE, &answer), "an event");
    }
    if (answer.word != DS_ACTED) stop(ds_refusal_text(answer.refusal));
}

static void turn(void) {
    struct ds_keeper_task task;
    uint64_t due;
    look();
    do {
        must(ds_keeper_task(&store, clock_now(), &task), "a task");
        carry_out(&task);
    } while (task.kind != DS_KEEPER_WAIT);
    must(ds_rs_due(&store, &due), "what is due");
    if (due <= clock_now() / TICK) event(DS_RS_TICK, "");
    nanosleep(&(struct timespec){.tv_nsec = 2000000}, NULL);
}

/* ---- the scene ---- */

static bool runs(size_t k, uint64_t generation) {
    return leaders[k].number && leaders[k].generation == generation && !leaders[k].has_exited && scan(leaders[k].number) == 1;
}

static void until_runs(size_t k, uint64_t generation) {
    while (!runs(k, generation)) turn();
}

int main(void) {
    struct ds_settings_fault fault;
    began_at = clock_now();
    alarm(SECONDS);
    if (prctl(PR_SET_CHILD_SUBREAPER, 1)) stop("a subreaper");
    must(ds_open(&store, 1, 0, 256), "a store");
    must(ds_rs_open(&store, settings, sizeof settings - 1, 1, 16, &fault), "RS");
    must(ds_keeper_open(&store), "keepers");

    event(DS_RS_UP, "mortal"), event(DS_RS_UP, "stubborn");
    until_runs(MORTAL, 1), until_runs(STUBBORN, 2);
    puts("begun: mortal 1, stubborn 2");

    pid_t first = leaders[MORTAL].number;
    kill(first, SIGKILL); /* its other process lives on */
    until_runs(MORTAL, 3);
    printf("killed, and restarted: mortal 3, nothing is left of the first: %d\n", scan(first) == 0 || leaders[MORTAL].number == first);

    uint64_t asked_at = clock_now();
    event(DS_RS_REFRESH, "stubborn");
    until_runs(STUBBORN, 4);
    printf("refreshed: stubborn 4, after the grace period: %d\n", clock_now() - asked_at >= GRACE);

    event(DS_RS_DOWN, "mortal"), event(DS_RS_DOWN, "stubborn");
    while (leaders[MORTAL].number || leaders[STUBBORN].number) turn();
    bool is_sooner = leaders[MORTAL].ended_at < leaders[STUBBORN].ended_at; /* SIGTERM ends it */
    printf("ended: mortal first: %d, no child is left: %d\n", is_sooner, waitpid(-1, NULL, WNOHANG) == -1);
    printf("the file has %" PRIu64 "\n", file);
    must(ds_close(&store), "the end");
    return 0;
}
