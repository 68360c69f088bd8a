/* Where the master is: one of the addresses of a URL in order, the one that a Sentinel names, or the one to which a
 * node of a cluster sends. Used by server.c and check.c. */
#ifndef DS_FLEET_MASTER_H
#define DS_FLEET_MASTER_H

#include "ds_fleet.h"
#include "host.h"
#include "link.h"

enum { MASTER_ADDRESSES = 8 /* in one URL */ };

enum master_state { MASTER_LISTED, MASTER_ASKED, MASTER_NAMED };

struct address { struct host host; int port; };

/* Begins with zeros, but for `wakeup`. */
struct master {
    enum master_state state;
    struct address listed[MASTER_ADDRESSES]; /* servers to be tried in order, or Sentinels; */
    size_t count, turn;                      /* how many, and which of them is due */
    struct address named;                    /* the address that a Sentinel named; in NAMED */
    struct link sentinel;                    /* the connection to a Sentinel; in ASKED */
    int wakeup;                              /* an eventfd, readable when a look-up has ended; -1: there is none */
    struct link_call call;                   /* once found: the address and port */
    char *url, *password;                    /* copies, into which `call` and `known_as` point */
    char *ca, *certificate, *key;            /* and of the files' names, into which `files` points */
    struct tls_files files;
    const char *known_as;                    /* the master's name at the Sentinels; NULL: there are none */
    const char *said;                        /* why the master is unknown */
    char tls_said[TLS_SAID];                 /* why the files can't be used */
};

/* Reads redis://[[USER]:PASSWORD@]HOST[:PORT][,HOST[:PORT]..][/DATABASE],
 * redis-sentinel://[[USER]:PASSWORD@]HOST[:PORT][,..]/NAME[/DATABASE] or unix://[[USER]:PASSWORD@]/PATH, or the first
 * two as rediss://, with ?db=DATABASE at its end or not; %XX is a byte of USER and PASSWORD. Reads the password and the
 * files of the options, too. Returns INSTEP, BADURL, NOTLS, BADTLS and then `said` says why, NOROOM, or SYSTEM, and
 * then errno says why. In each case it is ended by master_close. */
enum ds_fleet_word master_open(struct master *master, const struct ds_fleet_options *options);
/* Finds where to call, without waiting. HOST_SOUGHT: call again when `wakeup` or the Sentinel's connection is readable, or
 * after HOST_PATIENCE. */
enum host_found master_find(struct master *master, uint64_t now);
/* Empties `wakeup`. */
void master_hear(struct master *master);
/* A master was met there, or wasn't. */
void master_worked(struct master *master);
void master_failed(struct master *master);
/* A node of a cluster sends to `HOST:PORT`. An address that can't be read changes nothing. */
void master_moved(struct master *master, const char *place);
/* Whether another server may be the master while this one is a replica. */
bool master_has_others(const struct master *master);
void master_close(struct master *master);

#endif
