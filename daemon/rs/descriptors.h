/* How many descriptors can be opened still. */
#ifndef DSRS_DESCRIPTORS_H
#define DSRS_DESCRIPTORS_H

#include <stdbool.h>

enum { DESCRIPTORS_LEFT = 8 /* that services leave for clients, and for dsrs itself */ };

/* Whether this many can be opened, and DESCRIPTORS_LEFT more. Returns false, with errno. */
bool descriptors_are_there(int count);

#endif
