/* The rights of peers. A line of a peer is answered here: by the store, by RS, or by dsrs itself. */
#ifndef DSRS_REQUESTS_H
#define DSRS_REQUESTS_H

#include "peers.h"

/* Appends the answer to a line, which comes without its newline, to the peer's outbox. Returns false where memory runs out; the line was
 * carried out, or refused for the same reason. */
bool requests_answer(struct rs *rs, struct peer *peer, const char *line, size_t length);

#endif
