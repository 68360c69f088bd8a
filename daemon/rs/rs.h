/* RS, and the keepers of the services' processes: the library decides, and dsrs carries the decisions out. */
#ifndef DSRS_RS_H
#define DSRS_RS_H

#include "ds.h"
#include "events.h"
#include "generations.h"
#include "instances.h"
#include "peers.h"
#include "service.h"
#include "stream.h"
#include "ticks.h"
#include <stdbool.h>

enum { KEPT = 2 * SERVICES /* those of the settings, and those that a reload left out */ };

struct rs {
    const char *path;     /* the path of the settings */
    struct text settings; /* the text of those in use */
    uint16_t slot;        /* the first one */
    struct ds_handle store;
    struct service kept[KEPT]; /* without a label: unused */
    struct service *service[SERVICES]; /* those of the settings, in their order */
    size_t services;
    struct text other;        /* the settings of a reload that isn't done; without bytes there is none */
    int servers;              /* where the search for a server's number begins */
    struct instances instances;
    struct peers peers;
    struct ticks ticks;
    struct generations generations;
    struct stream stream;
    struct events events;
    struct outlet outlet;     /* the outlet of the services' outputs */
    size_t next_output;       /* the next output to be read, an index of `kept` */
    size_t left;   /* while dsrs goes down: how many services are still to be stopped, the last one first */
    bool ending;
    uint64_t ends_at; /* when log programs are killed then, by clock_now */
    bool repeats;  /* an event is reported again a little later, since memory ran out, or the generation isn't kept */
    bool unwritten; /* the next generation couldn't be written */
    bool is_busy;  /* by the keepers, a service that the other settings leave out has processes still */
};

/* Opens a store with RS and keepers for the file of settings, at tick 0. Returns false after an event that says why. */
bool rs_open(struct rs *rs);
/* Learns which services the settings have: new ones get their output, and others keep theirs and their instances. Notes
 * which are to be started, and which refreshed. */
void rs_learn(struct rs *rs);
/* Finds a service of a store's RS by a label. */
bool rs_find(struct ds_handle *store, const char *label, struct ds_rs_service *found);
/* Events, at the current tick. */
struct ds_rs_event rs_of_label(enum ds_rs_event_kind kind, const char *label, size_t length);
struct ds_rs_event rs_of_instance(enum ds_rs_event_kind kind, uint32_t generation, uint16_t slot, enum cause cause);
/* Writes the generation that the keepers want before the next start, if any. Returns whether the file has that generation. */
bool rs_may_start(struct rs *rs);
/* Reports an event, and carries out the actions. Appends the answer to `to`, unless that is NULL. Returns false where memory runs out for
 * the answer. */
bool rs_event(struct rs *rs, struct ds_rs_event *event, struct text *to);
/* Reports an event that RS hasn't learnt, without an answer. Returns false where memory ran out: the event is to be reported again. */
bool rs_tell(struct rs *rs, enum ds_rs_event_kind kind, const char *label);
/* Reports the death of an instance that is up. Returns false where memory ran out: the death is to be reported again. */
bool rs_report(struct rs *rs, struct instance *instance);
/* Reports that an instance couldn't begin, which RS counts as a death, and frees the instance. Returns false where memory ran out. */
bool rs_fail(struct rs *rs, struct instance *instance);
/* Reports the time if something is due, until nothing is. */
void rs_tick(struct rs *rs);
/* Returns the tick at which something is due, or TICKS_NEVER. */
uint64_t rs_due(struct rs *rs);
/* Keeps the store in step with those of other hosts. */
void rs_keep_step(struct rs *rs);
/* While dsrs goes down: stops all services, the last one first. Returns whether one was stopped. */
bool rs_go_down(struct rs *rs);
void rs_close(struct rs *rs);

#endif
