/* A server's drivers: it connects to them by their endpoints, asks them what its table says, and complains of one that answers wrongly. */
#ifndef MACHINE_DRIVERS_H
#define MACHINE_DRIVERS_H

#include "ds.h"
#include "frame.h"
#include "ring.h"
#include <poll.h>

enum { DRIVERS = 4, JOBS = 1024 };

struct endpoint { uint32_t generation; uint16_t slot; };

struct driver {
    const char *label;
    uint8_t unit;
    struct endpoint at; /* where it was last met */
    int socket;         /* -1: the server isn't connected to it */
    bool is_blamed, has_answered;
    uint64_t oldest;    /* the id of its oldest request, at the last look at it */
    unsigned looks;     /* at which that was the same */
    struct ring out;    /* the ids of jobs to be sent; SETUP_ID: a SETUP */
};

/* A request to a driver. It is pending until the driver answers, however often it dies. */
struct job {
    struct head head; /* its id is the table's */
    struct driver *driver;
    const uint8_t *data;  /* head.length bytes */
    const struct frame *answer;
    unsigned task, step;  /* the server's own */
    bool is_used, is_sent;
};

enum { SETUP_ID = 0 };

/* What a server does of its own. */
struct serving {
    void (*done)(struct job *job, const struct frame *answer);             /* answer is NULL if the driver died with it */
    void (*is_set_up)(struct driver *driver);                              /* a port was begun */
    void (*received)(struct driver *driver, const struct frame *datagram); /* from the wire */
};

void drivers_open(const struct serving *serving, struct driver *drivers, unsigned count);
/* Asks a driver, now or when it comes. Its data, if any, is the caller's until the job is done. It exits if memory runs out. */
struct job *drivers_ask(struct driver *driver, struct head head, const uint8_t *data, unsigned task, unsigned step);
/* Complains of an instance, once, if RS doesn't know of its death. */
void drivers_blame(struct driver *driver, struct endpoint at, const char *why);
bool drivers_is_at(const struct driver *driver, struct endpoint at);
/* Whether it can be asked at once. */
bool drivers_is_here(const struct driver *driver);
/* Carries out the moves of the table. */
void drivers_move(void);
void drivers_poll(struct pollfd *polled);
/* Takes answers. */
void drivers_turn(const struct pollfd *polled);
/* Complains of those that don't answer. Call it after labels_hear, which says who is dead. */
void drivers_look(void);
/* Sends what waits. */
void drivers_write(void);
/* Writes a line to standard error: when, what, of which driver, and why. */
void drivers_note(const char *what, const struct driver *driver, struct endpoint at, const char *why);

#endif
