/* The answer to `status`: the state of each service. */
#ifndef DSRS_STATUS_H
#define DSRS_STATUS_H

#include "rs.h"

/* Appends a line for each service, in the order of the settings:
 *   LABEL STATE ENDPOINT PID SECONDS FAILURES CAUSE STATUS
 * STATE is down, wants, up, ready, waiting or givenup. ENDPOINT and PID are `-` unless the service is up. SECONDS are those since the last
 * start or end. STATUS may have spaces. Then `services N`. Returns false where memory runs out. */
bool status_put(struct rs *rs, struct text *to);

#endif
