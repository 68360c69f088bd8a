/* Leftover processes of a run that was killed. The kernel kills the first processes of the run's services, which may take a while to die. Left
 * are their descendants, and processes that became another user's. */
#ifndef DSRS_LEFTOVERS_H
#define DSRS_LEFTOVERS_H

#include "events.h"
#include <stdbool.h>

/* Kills every process with this folder of sockets in the environment. Returns how many there were. */
int leftovers_kill(const char *endpoints);
/* Kills them, and waits for their end, for some seconds at most. A dying process has no environment; then a socket of the folder, kept as
 * long as the process' locks, still accepts connections. Returns whether all have ended. */
bool leftovers_end(const char *endpoints, struct events *events);

#endif
