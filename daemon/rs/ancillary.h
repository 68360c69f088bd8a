/* Descriptors that are sent to a peer, each with an answer or a notice of dsrs. */
#ifndef DSRS_ANCILLARY_H
#define DSRS_ANCILLARY_H

#include "text.h"
#include <stdbool.h>
#include <stddef.h>

enum { ANCILLARY = 2 /* that wait for one peer here; the kernel keeps a few hundred */ };

struct ancillary {
    size_t count;
    struct { size_t at; int file; } message[ANCILLARY]; /* at: the place of the descriptor's lines in the bytes to be sent */
};

/* Takes a descriptor over, which goes with the lines from a place on, up to an empty one. Fewer than ANCILLARY wait already, and
 * none of them for a later place. */
void ancillary_take(struct ancillary *ancillary, size_t at, int file);
/* Sends as much of the text as goes without waiting, and drops that. Returns false, with errno, if nothing can be sent. Where too many
 * descriptors are in flight, the lines are sent without theirs. */
bool ancillary_send(struct ancillary *ancillary, struct text *text, int socket);
/* Closes the descriptors that wait. */
void ancillary_drop(struct ancillary *ancillary);

#endif
