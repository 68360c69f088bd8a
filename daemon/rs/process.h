/* A process that dsrs begins, and its environment. Used by instances.c and logger.c. */
#ifndef DSRS_PROCESS_H
#define DSRS_PROCESS_H

#include <stdint.h>
#include <sys/types.h>

enum { PROCESS_SOCKET = 3, PROCESS_LISTENER = 4 }; /* descriptors of an instance besides the standard ones */

struct process {
    const char *services, *folder; /* SERVICES/FOLDER/run is executed, in its folder */
    const char *label;
    int input, output;     /* becomes standard input, or -1: /dev/null; standard output and error, or -1: those of dsrs */
    const char *endpoint;  /* the endpoint of an instance; NULL for a log program, which doesn't use the rest */
    const char *endpoints; /* the folder of sockets */
    int socket, listener;
    int cgroup;            /* the folder of the process's cgroup, or -1 */
    int first_sub;         /* the first of the instance's subscriptions, or -1 */
    uint64_t silence;      /* for how many microseconds the process may be silent; 0: for ever */
};

/* Forks a process that becomes `run`, and ends with dsrs. An instance is the leader of a new session, and so of a new group; a log program
 * is the leader of a new group in the session of dsrs. Returns the process' number, and a descriptor by which dsrs sees the end; or -1 with
 * errno, and then nothing began. If `run` can't be executed, the process ends with status 127 after a line to standard error. */
pid_t process_begin(const struct process *process, int *pidfd);

#endif
