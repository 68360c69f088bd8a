/* Other settings while services run. Services whose labels stay keep their instances; the store and its clients stay. */
#ifndef DSRS_RELOAD_H
#define DSRS_RELOAD_H

#include "rs.h"

/* Reads the file of settings again. Those with a fault change nothing, after an event that says why, and nor do those in use.
 * A reload that isn't done yet is replaced. */
void reload_begin(struct rs *rs);
/* Carries the reload out, step by step: stops the services that are left out; once none of their processes runs, gives RS the settings;
 * then refreshes services that need another instance, and starts new ones. Returns whether another step may follow. */
bool reload_turn(struct rs *rs);

#endif
