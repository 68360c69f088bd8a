/* The tasks of the keepers: which process is forked, signalled, looked for or reaped, and when. The library decides about them. */
#ifndef DSRS_TASKS_H
#define DSRS_TASKS_H

#include "rs.h"

/* Notes that an instance's first process has ended. */
void tasks_note_end(struct rs *rs, const struct instance *instance);
/* Carries out all tasks that there are now. */
void tasks_turn(struct rs *rs);
/* Has the processes end now that have a grace period. */
void tasks_hurry(struct rs *rs);
/* Returns when there may be another task by the clock, or a look at processes; 0: never. */
uint64_t tasks_due(struct rs *rs);

#endif
