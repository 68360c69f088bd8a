/* The peers of dsrs, which send lines: instances, each over a socket of its own, and the public, over the socket of dsrs. A process that
 * holds the socket of an instance speaks for the instance. */
#ifndef DSRS_PEERS_H
#define DSRS_PEERS_H

#include "instances.h"
#include "ancillary.h"
#include "watch.h"
#include "wire.h"
#include <stdbool.h>
#include <stdint.h>
#include <sys/types.h>

enum {
    PEERS = 512,             /* at once, of which two for each service are kept for instances */
    PEERS_PUBLIC = PEERS - 2 * SERVICES,
    PEERS_WAIT = 64 << 20,   /* bytes that wait for all of the public; then the one with the most is dropped */
    PEERS_LAST = 1 << 20,    /* bytes that are read of an instance that died, */
    PEERS_OWN = 16,          /* and places of the public for those who may order something */
    PEER_LINES = 64          /* that are answered in one turn */
};

struct peer {
    struct watch socket;
    bool is_instance;
    struct instance *instance; /* the instance, until it ends */
    uid_t user;                /* the user of a client; an instance has none */
    bool gone;                 /* freed at the end of the turn */
    struct wire wire;          /* of the public's subscriptions, those that this peer has leased */
    struct ancillary ancillary; /* descriptors that go with bytes to be sent */
};

struct peers {
    struct peer *peer[PEERS];
    size_t count, of_public;
    int epoll;
};

struct rs;

/* Whether a user of the public may start and stop services: root, and the user of dsrs. */
bool peers_may_order(uid_t user);
/* Adds a peer by a socket, which is closed with the peer, or if there is no place or memory for a peer. */
void peers_add(struct peers *peers, int socket, struct instance *instance, uid_t user);
/* Reads the bytes that have arrived, and answers lines. */
void peers_turn(struct rs *rs);
/* Answers all lines that an instance sent before its death. */
void peers_finish(struct rs *rs, struct instance *instance);
/* Ends the peer of an instance, whatever process holds the socket. */
void peers_forget(struct peers *peers, const struct instance *instance);
/* Sends an instance a line of dsrs' own. */
void peers_tell(struct peers *peers, const struct instance *instance, const char *line);
/* Gives an instance's peer and another instance an end each of a new pair of connected sockets: the peer with the line
 * that is put next, the other instance with a line `peer ENDPOINT`. Returns NULL, or why not: `full` or `noroom`. */
const char *peers_connect(struct peers *peers, struct peer *from, const struct instance *to);
/* Owes the notices of a mask to those who listen. */
void peers_owe(struct peers *peers, const uint8_t owed[16]);
/* Writes as much as goes without waiting, and frees peers that are gone. Returns whether some peer has lines that can be answered at once. */
bool peers_send(struct peers *peers);
void peers_close(struct peers *peers);

#endif
