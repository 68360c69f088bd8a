/* How a bridge notices that a server lost entries: by the server's counts, and by entries that have to
 * be there. Used within the library. */
#ifndef DS_FLEET_LOSS_H
#define DS_FLEET_LOSS_H

#include "answers.h"
#include "link.h"

/* The questions of a look at a stream, and the fields of the snapshot. They come in one transaction. */
enum { LOOK_STREAM, LOOK_SNAPSHOT, LOOK_BYTES, LOOK_QUESTIONS };
enum { LOOK_AT, LOOK_TRIMMED, LOOK_SCOPE, LOOK_FIELDS };

/* A server's stream, as one look saw the counts. */
struct stock {
    struct entry_id snapshot;  /* the entry up to which the snapshot goes; 0-0: there is none, or none of such an entry */
    struct entry_id generated; /* the last id that the stream gave to an entry */
    struct entry_id newest;    /* the last entry in the stream */
    long long bytes;           /* the size of the snapshot */
    long long added, gone;     /* entries that were ever added; those that went otherwise than into the snapshot */
};

/* Asks the questions of a look, after a MULTI. */
void look_ask(struct link *link, const char *stream);
/* Reads what the transaction answered to them; to LOOK_SNAPSHOT a list of LOOK_FIELDS. An answer of another kind counts
 * as none. */
struct stock look_answered(struct redisReply **looked);
/* Whether a server has less than before: the snapshot is older or smaller, entries left the stream and aren't in it, or
 * fewer were ever added. */
bool has_less(const struct stock *before, const struct stock *now);

/* Entries of one origin, as those that a bridge added. While the stream is the same one, each of them is in it, or in
 * the snapshot. A stream that was replaced since it was last looked at lacks `sure` or, where no entry was there then,
 * `first`. */
struct trail {
    struct entry_id sure;  /* the last entry when the stream was last looked at */
    struct entry_id first; /* the first one since then */
    struct entry_id last;  /* the last one of all */
    struct entry_id asked; /* the last one when the look that runs was asked */
    struct entry_id later; /* the first one since that */
};

void trail_add(struct trail *trail, struct entry_id entry);
/* Asks for a look at the stream; trail_looked once it found the entries. A look without an answer is repeated. */
void trail_ask(struct trail *trail);
void trail_looked(struct trail *trail);

#endif
