/* The outputs of all services, and their log programs. */
#ifndef DSRS_OUTPUTS_H
#define DSRS_OUTPUTS_H

#include "rs.h"

/* Opens the output of a new service: to the service's log program, if there is one. */
void outputs_open(struct rs *rs, struct service *service);
/* Looks for the log program before a start of the service: the file may have appeared, or gone. */
void outputs_look(struct rs *rs, struct service *service);
/* Lists the log programs of all services for `instances`: their processes aren't strays. */
void outputs_list_logs(struct rs *rs);
/* Passes on the output of services, for a few milliseconds. Returns whether more can be passed on at once. */
bool outputs_pass(struct rs *rs);
/* Watches the outputs of services, or standard error while that is full. Brings `due` forward if a descriptor can't be watched. */
void outputs_watch(struct rs *rs, uint64_t *due);
/* Starts, reaps and kills log programs, and brings `due` forward to when the next of them is due. Returns whether one runs. */
bool outputs_turn_logs(struct rs *rs, uint64_t *due);
/* Called when a service has no process left: the log program reads the rest, and ends within a grace period. */
void outputs_end_log(struct service *service, uint64_t grace);
/* As `outputs_end_log`, for all services, at the end. */
void outputs_end_logs(struct rs *rs);
/* Passes on the rest, and closes all outputs. */
void outputs_close(struct rs *rs);

#endif
