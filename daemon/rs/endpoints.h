/* The sockets of an instance: the pair that connects the process with dsrs, and the listening socket of the endpoint. */
#ifndef DSRS_ENDPOINTS_H
#define DSRS_ENDPOINTS_H

#include "instances.h"

/* Makes them before the process runs, so a client that finds the label can connect at once and waits. Returns false, with errno,
 * and then there are none. */
bool endpoints_open(const struct instances *all, struct instance *instance);
/* From here on the kernel refuses who connects to the endpoint. */
void endpoints_close(const struct instances *all, struct instance *instance);

#endif
