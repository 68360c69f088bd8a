/* The other bridges of a stream, compared by digests of what they hold. Used within the library.
 *
 * Two digests can be compared only if both were taken after the same entries were read, with nothing else held. So each
 * digest names the entry at which it was taken, and a bridge keeps some of its own for peers that took theirs a little
 * earlier. At a marked entry all hash its mark first, since who adds it has to take its digest before the entry has an id;
 * at any other, its id. */
#ifndef DS_FLEET_PEERS_H
#define DS_FLEET_PEERS_H

#include "answers.h"

enum {
    PEERS = 128,      /* others whose digests are compared */
    OWN_DIGESTS = 8,  /* the newest ones, which are kept */
    PEER_ID = 33,     /* bytes of the name of a run, with its zero */
    DIGEST_TEXT = 112 /* bytes of a digest as it is published, with its zero */
};

struct digest {
    struct entry_id at;
    unsigned long long mark; /* the watermark of the entry; 0: the digest was taken by the entry's id */
    unsigned long long value;
};

/* Another bridge. */
struct peer {
    char id[PEER_ID];
    unsigned long long beat; /* a number that rises with each round of the peer's own */
    unsigned still;          /* rounds since the peer's beat last rose */
    unsigned differs;        /* digests at the same entry that differed, without one between that didn't */
    bool there;              /* whether the answer that is being read has the peer */
    struct digest newest;    /* the peer's digest in that answer */
};

struct peers {
    struct digest own[OWN_DIGESTS];
    unsigned long own_count;
    struct peer peer[PEERS];
    size_t count;
    unsigned differing;    /* others that hold something else */
    struct digest apart;   /* the last one of one's own from which one of them differs */
    bool is_first;         /* no other one that holds the same at its entry has a lesser name */
};

/* Keeps a digest of one's own. */
void peers_keep(struct peers *peers, struct digest digest);
/* Returns the digest of one's own at the same entry and mark as another one, or NULL. */
const struct digest *peers_own(const struct peers *peers, const struct digest *other);
/* Writes the newest own digest as others read it. Returns false if there is none. */
bool peers_write(const struct peers *peers, unsigned long long beat, char text[DIGEST_TEXT]);
/* Forgets the digests of one's own: their entries are of another stream. */
void peers_forget_own(struct peers *peers);
/* Reads the digests of all, a list of names and values. `me` is one's own name. */
void peers_compare(struct peers *peers, const char *me, const redisReply *digests);
/* Returns the name of a peer that published no digest for a minute, whose last one may be deleted; or NULL. */
const char *peers_gone(const struct peers *peers);

#endif
