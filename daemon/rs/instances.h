/* The instances of services: their processes and sockets. An instance is a process group that dsrs began, with the endpoint from RS, in a
 * cgroup where there are cgroups. RS and the keepers of the library decide when each begins and ends. */
#ifndef DSRS_INSTANCES_H
#define DSRS_INSTANCES_H

#include "cgroups.h"
#include "events.h"
#include "service.h"
#include "watch.h"
#include <stdbool.h>
#include <stdint.h>
#include <sys/types.h>

enum {
    ENDPOINT = 16,            /* bytes of an endpoint's text, with the terminating zero */
    INSTANCES = 2 * SERVICES  /* of each service one that has processes, and one whose start is pending */
};

struct instance {
    struct watch pidfd;   /* the descriptor of the first process, until that process is reaped */
    struct instance *next;
    struct service *service;
    uint32_t generation;
    uint16_t slot;
    char endpoint[ENDPOINT];
    char name[ENDPOINT];  /* of the socket and of the cgroup */
    bool is_up;           /* RS counts the instance as up */
    pid_t pid;            /* of the first process and the group; 0 before the start. No other process has the number until the first one is reaped */
    bool is_over;         /* the first process has ended. Once its group is empty, dsrs reaps the process */
    bool is_alone;        /* the last look found nothing else there */
    bool is_killed;       /* SIGKILL was sent to all processes that were found */
    uint64_t stray_at;    /* when a process that had left the group was killed last, by clock_now; or 0 */
    int socket, theirs;   /* dsrs' end of the pair of sockets, until a peer has that; the process' end, until the process begins */
    int cgroup;           /* the folder of the instance's cgroup, or -1 */
    int listener;         /* where others connect to the instance */
    bool is_short;        /* a resource was exhausted when the process was to begin */
    bool is_ready;        /* READY=1 was received */
    const char *refused;  /* why the store refused the label, or NULL */
    enum cause cause;     /* of the end of the first process */
};

struct instances {
    struct instance all[INSTANCES]; /* here, so that starting one needs no memory; without a service: unused */
    struct instance *first;
    const char *services, *endpoints; /* the folders of the programs and of the sockets */
    struct events *events;
    uint64_t tick;        /* milliseconds */
    uint64_t grace;       /* milliseconds between SIGTERM and SIGKILL */
    struct cgroups cgroups;
    const struct logger *loggers; /* the log programs of all services */
    int epoll;
    bool is_clear;        /* no process of an earlier run is left */
    bool is_fresh;        /* the groups were looked at since something happened */
    uint64_t look_at;     /* when a look may find something else, by clock_now; 0: nothing happened since */
    uint64_t sweep_at;    /* when strays are looked for, by clock_now; 0: no child ended since */
    uint64_t swept_at;    /* when they were looked for last */
    bool sweeps_again;    /* an instance is gone, so they are looked for twice */
};

/* How a try to begin the first process went. */
enum start { START_BEGUN, START_SHORT /* a resource is exhausted for a while */, START_FAILED };

/* Carries out RS's `start`, and returns the instance. The keepers decide when the process begins. */
struct instance *instances_add(struct instances *all, struct service *service, uint32_t generation, uint16_t slot);
/* Begins the first process. The endpoint's socket listens before. */
enum start instances_begin(struct instances *all, struct instance *instance);
/* Closes the endpoint of an instance that RS doesn't count as up any more. Frees an instance without a process. */
void instances_end(struct instances *all, struct instance *instance);
/* Sends the group SIGTERM and SIGCONT. */
void instances_terminate(const struct instance *instance);
/* Kills the group, and what is in the cgroup. */
void instances_kill(struct instances *all, struct instance *instance);
/* Reaps the first process, which has ended, and frees the instance. */
void instances_reap(struct instances *all, struct instance *instance);
/* Returns the instance with this endpoint that RS counts as up, or NULL. */
struct instance *instances_at(const struct instances *all, uint32_t generation, uint16_t slot);
/* Returns the instance with this first process, or NULL. */
struct instance *instances_by_pid(const struct instances *all, pid_t pid);
/* Notes that a child of dsrs has ended. */
void instances_stir(struct instances *all);
/* Returns whether the first process has ended, and finds the cause. */
bool instances_note_end(struct instances *all, struct instance *instance);
/* Has groups looked at again after a while. */
void instances_look_again(struct instances *all, uint64_t milliseconds);
/* Kills strays if that is due. */
void instances_sweep(struct instances *all);
/* Returns when groups or strays are looked at by the clock, or 0. */
uint64_t instances_due(const struct instances *all);

#endif
