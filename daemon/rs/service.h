/* A service of the settings, with dsrs' own knowledge beside RS's. */
#ifndef DSRS_SERVICE_H
#define DSRS_SERVICE_H

#include "ds.h"
#include "logger.h"
#include "output.h"
#include <stdbool.h>
#include <stdint.h>

enum {
    SERVICES = 64,
    SERVICE_LABEL = 65,  /* bytes of a label, with the terminating zero */
    SERVICE_STATUS = 80, /* bytes that are kept of a service's STATUS= */
    SERVERS = 16,        /* that the store has subscriptions for; those of the last one are the public's */
    SERVER_SUBS = 8      /* subscriptions of each server */
};

/* Why an instance ended, as RS numbers it; CAUSE_NONE: by `service down`. */
enum cause { CAUSE_NONE, CAUSE_EXIT, CAUSE_EXCEPTION, CAUSE_SIGNAL, CAUSE_HEARTBEAT, CAUSE_COMPLAINT, CAUSE_UPDATE };

/* The event that RS has still to learn of a service after a reload. */
enum wish { WISH_NOTHING, WISH_START, WISH_REFRESH };

struct service {
    char label[SERVICE_LABEL];
    size_t number;    /* among the services of RS and of the keepers, from 0 */
    bool leaves;      /* the settings of a pending reload leave the service out */
    bool was_up;      /* the service was up when the reload stopped it */
    bool is_left_out; /* the settings in force leave the service out: the log program reads the rest */
    enum wish wish;
    struct ds_rs_service settings; /* as RS has them */
    int server;      /* the number among the servers that have subscriptions, or -1 */
    uint64_t since;  /* when the last instance was started or ended, by clock_now */
    enum cause cause; /* why the last instance ended */
    char status[SERVICE_STATUS]; /* the last STATUS= of the instance */
    struct output output;
    struct logger logger;
};

#endif
