/* The kernel's reports on processes, in /proc. */
#ifndef DSRS_PROC_H
#define DSRS_PROC_H

#include "text.h"
#include <stdbool.h>
#include <stdint.h>
#include <sys/types.h>

struct proc_seen { pid_t parent, group, session; char state; bool has_memory; /* until the process is dying */ };

/* Reads a whole file of /proc, and ends the text by a zero. Returns false if the file can't be read, or memory runs out. */
bool proc_read(const char *path, struct text *text);
/* Reads the state of a process. Returns false if there is none with this number. */
bool proc_look(pid_t pid, struct proc_seen *seen);
/* Puts the number of each child of dsrs, a pid_t each. They keep their numbers until dsrs reaps them. Returns false if they
 * can't be listed. */
bool proc_children(struct text *numbers);
/* Takes the number at a place of this list, and moves the place on. Returns false past the last one. */
bool proc_next(const struct text *numbers, size_t *at, pid_t *pid);
/* Finds the endpoint in the environment that a process began with, if the folder of sockets there is this one. */
bool proc_endpoint(pid_t pid, const char *endpoints, uint32_t *generation, uint16_t *slot);

#endif
