/* Processes besides the first ones of instances: those of their groups, and strays, which left a group by a session of their own, and
 * whose parents have ended. The kernel made strays children of dsrs, which is a subreaper. A first process stays a zombie until the group
 * is empty, so the kernel gives the number of the group to no other process meanwhile. */
#ifndef DSRS_GROUPS_H
#define DSRS_GROUPS_H

#include "instances.h"

/* Scans for processes of an instance besides the first one, which has ended. Reaps those of the group that have ended. Strays of an empty
 * group, and what is in the cgroup, are killed; until they have ended, the group counts as not empty. The groups are looked at again soon
 * if the children of dsrs can't be listed now, or something was killed. */
enum ds_keeper_scan groups_scan(struct instances *all, struct instance *instance);
/* Kills strays, and reaps children of dsrs that have ended. Returns whether there were any. A stray's instance is known by DS_ENDPOINT and
 * DS_FOLDER in the environment that the process began with. A child without a known instance lives: one that cleared its environment, that
 * became another user's, or that is older than dsrs. */
bool groups_kill_strays(struct instances *all);

#endif
