/* The answers to `state` and to `metrics`. */
#ifndef DSFLEET_FIGURES_H
#define DSFLEET_FIGURES_H

#include "clients.h"

/* Puts the answer to the line `state`, or to `metrics`: these in Prometheus' text format. Returns false where memory
 * runs out. */
bool figures_put(const struct clients *clients, const char *line, struct text *to);

#endif
