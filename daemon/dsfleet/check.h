/* `dsfleet --check`: whether a server and its rights will do. Used by dsfleet.c alone. */
#ifndef DSFLEET_CHECK_H
#define DSFLEET_CHECK_H

#include "ds_fleet.h"

/* Asks the first server that answers. Prints a line `good`, `warning` or `fault`, a space and a sentence, for each thing looked at. Writes
 * nothing in redis. Returns whether there is no fault. */
bool check_server(const struct ds_fleet_options *options);

#endif
