/* The clients of dsfleet: the store answers their lines, once the stream has their changes. Used by dsfleet.c alone.
 *
 * The store's handle keeps the text of the last answer alone, and the carrier asks the store in each turn. So an answer is
 * fetched whole, and a question whose answer may be long waits until there is room: CLIENTS_WAIT bytes
 * over all clients, past which each may have CLIENT_FEW bytes of short answers. Half of that room, and half of the
 * places, are for clients that read: where a client needs one and slow clients have more than their half, the client
 * that has read nothing for longest is dropped. */
#ifndef DSFLEET_CLIENTS_H
#define DSFLEET_CLIENTS_H

#include "ds_fleet.h"
#include "log.h"
#include "rights.h"
#include "wire.h"
#include <poll.h>

enum {
    CLIENTS = 512,           /* at once, at most */
    CLIENT_FEW = 1 << 14,    /* bytes that wait for a client before more is answered, where CLIENTS_WAIT is used up; else WIRE_WAITS */
    CLIENTS_WAIT = 64 << 20, /* bytes that wait for all clients */
    CLIENT_SLOW = 1000,      /* milliseconds: a client that leaves an answer unread for so long is slow */
    CLIENTS_TURN = 50,       /* milliseconds of one turn after which no long answer begins */
    CLIENT_ENDPOINT = 16     /* bytes of an endpoint, with the terminating zero */
};

/* The limits that an administrator may set. */
struct clients_limits {
    size_t clients;    /* at once */
    size_t output;     /* bytes that wait for a client before more is answered: WIRE_WAITS */
    size_t all_output; /* bytes that wait for all clients: CLIENTS_WAIT */
    size_t timeout;    /* seconds after which a client that sends nothing is dropped; 0: never */
};

struct client {
    int socket;
    enum role role;
    char endpoint[CLIENT_ENDPOINT]; /* of the client, by `as`; or nothing */
    bool gone;             /* hung up: reads no more answers */
    bool failed;           /* out of memory for this client */
    uint64_t active_at;    /* when the client last sent something, in milliseconds */
    uint64_t moved;        /* when the client last had no answer to read, or read some of one, in milliseconds */
    struct wire wire;      /* the subscriptions of this client: their numbers are free once the client is gone */
    struct text held;      /* answers whose changes aren't in the stream yet */
    bool was_held;         /* one of them says that a change was held before */
    uint64_t mark;         /* held may be written once everything before this mark is in the stream */
};

struct clients {
    struct ds_handle *store;
    struct ds_fleet *fleet;
    struct log *log;
    struct clients_limits limits;
    struct rights rights;
    struct client *client[CLIENTS];
    size_t count, first; /* first: the client whose lines are answered first */
    size_t waiting;      /* bytes of answers that wait for all of them */
    bool refused;        /* a line of this turn wasn't answered yet */
    bool crowded;        /* a line of this turn waits until there is room for its answer */
    bool long_one;       /* this turn has answered a line whose answer may be long */
    bool hurries;        /* this turn answers no further line of that kind */
    uint64_t turn_end;   /* when the rest of the clients' lines waits for the next turn */
    bool newest;         /* in this turn the newest client comes first */
};

/* Adds a client by a socket, which is closed with the client. Returns false, and closes the socket, if there are too
 * many clients or memory runs out. A process without rights, or a reader where readers have half of the places, is a
 * client for as long as its hang-up takes. */
bool clients_add(struct clients *clients, int socket);
/* Drops clients that sent nothing for as long as the limit says, are owed no answer, and listen to nothing. */
void clients_drop_idle(struct clients *clients);
/* Drops the client that has read nothing for longest, for another one that needs the place or the room, where slow
 * clients have more than half of the places, or of the room. */
bool clients_drop_slowest(struct clients *clients, bool for_place);
/* How poll is to watch a client: for reading while the last lines are answered and the client reads answers, for
 * writing where bytes wait; and always for hanging up, which poll reports anyway. */
struct pollfd clients_watched(const struct clients *clients, const struct client *client);
/* Reads the client's lines, or notes a hang-up, by poll's report. */
void clients_read(struct client *client, short events);
/* Answers the lines of each client whose last ones are answered. Of a client that hung up only the changes are
 * carried out. */
void clients_answer(struct clients *clients);
/* Owes the notices of a mask to clients that listen. */
void clients_owe(struct clients *clients, const uint8_t owed[16]);
/* Releases held answers whose changes are in the stream by now, writes as much as goes without waiting, and drops clients that
 * have all their answers or hung up. Returns true where a client has lines that can be answered at once. */
bool clients_write(struct clients *clients);
/* Whether each client has all its answers. */
bool clients_are_done(const struct clients *clients);
void clients_close(struct clients *clients);

#endif
