/* The command line of dsfleet. Used by dsfleet.c alone. */
#ifndef DSFLEET_OPTIONS_H
#define DSFLEET_OPTIONS_H

#include "clients.h"
#include "place.h"
#include "usage.h"

enum { UNFIT = 1 /* the status of a --check that found a fault */ };

struct options {
    struct ds_fleet_options fleet;
    size_t keep, replicas, within; /* as they are read: those of `fleet` */
    struct clients_limits limits;
    struct rights rights;
    struct place_access access;
    const char *socket;
    char *url;           /* a copy that main frees; NULL: the URL is the environment's */
    bool checks;         /* only says whether a server will do */
    bool logs_json;
    bool shows_password; /* the words have one, which other users could see */
};

/* Reads the words. Returns GO_ON, or the exit status after a message. A password in a URL
 * among the words is overwritten there. */
int options_read(int count, char **words, struct options *options);
/* The sentence on a fault of usage that the carrier reports by a word. */
const char *options_explained(enum ds_fleet_word word);

#endif
