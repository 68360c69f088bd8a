/* The addresses of a host. A name is looked up by a thread, so no caller waits for a name server. Used by master.c
 * alone. */
#ifndef DS_FLEET_HOST_H
#define DS_FLEET_HOST_H

#include <stdbool.h>
#include <stdint.h>

enum {
    HOST_ADDRESSES = 8,
    HOST_TEXT = 64,      /* bytes of an address in digits, with the terminating zero */
    HOST_NAME = 256,     /* bytes of a name, with the terminating zero */
    HOST_PATIENCE = 1000 /* milliseconds, after which the address that worked last is called */
};

struct lookup;

/* A host. Begins with zeros. */
struct host {
    char name[HOST_NAME];
    bool is_address;         /* the name is an address in digits, and nothing is looked up */
    int wakeup;              /* an eventfd of the caller's, readable when a look-up has ended */
    struct lookup *lookup;   /* the one that runs, or NULL; there is one at a time */
    uint64_t asked_at;       /* when the look-up began, in milliseconds */
    unsigned turn;           /* which of several addresses is called: the next one after each failure */
    char address[HOST_TEXT]; /* the one that is called */
    char worked[HOST_TEXT];  /* the last one at which a server was met, or nothing */
    const char *said;        /* why there is none */
};

enum host_found {
    HOST_FOUND,  /* `address` is to be called */
    HOST_SOUGHT, /* the name is being looked up: ask again when it is readable, or after HOST_PATIENCE */
    HOST_UNKNOWN /* no address is known; `said` says why */
};

/* Names the host. A longer name than fits is cut. */
void host_open(struct host *host, const char *name, int wakeup);
/* Finds an address to call. A name is looked up for each call. If no name server answers, the address that worked last
 * is called. */
enum host_found host_find(struct host *host, uint64_t now);
/* A server was met at the address, or wasn't. */
void host_worked(struct host *host);
void host_failed(struct host *host);
/* Waits for nothing: a look-up that runs is left to the thread, which frees the memory. */
void host_close(struct host *host);

#endif
