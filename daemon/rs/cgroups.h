/* A cgroup for each instance, below one that is delegated to dsrs: the kernel ends all processes of an instance at once.
 * Version 2, as of Linux 5.14. Without cgroups, an instance is its process group and strays. */
#ifndef DSRS_CGROUPS_H
#define DSRS_CGROUPS_H

#include "events.h"
#include <stdbool.h>

struct cgroups { int folder; /* in which those of instances are, or -1 */ };

/* Opens the cgroup at a path, or without a path that of dsrs if systemd marked the cgroup as delegated, and kills the processes of an
 * earlier run. No other dsrs may use the cgroup. Returns false after an event that says why, with a path alone. */
bool cgroups_open(struct cgroups *cgroups, const char *path, struct events *events);
/* Makes a cgroup. Returns a descriptor of the folder, or -1 with errno. */
int cgroups_make(const struct cgroups *cgroups, const char *name);
/* Kills all processes of a cgroup, unless it is -1. */
void cgroups_kill(int cgroup);
/* Removes a cgroup and those below. Returns false if a process is in one of them. */
bool cgroups_remove(const struct cgroups *cgroups, const char *name);
void cgroups_close(struct cgroups *cgroups);

#endif
