/* Events: each is written to standard error, and the last EVENTS are kept for the line `log`. */
#ifndef DSRS_EVENTS_H
#define DSRS_EVENTS_H

#include "log.h"
#include "text.h"
#include <stdbool.h>
#include <stdint.h>

enum { EVENTS = 1024, EVENT = 160 /* bytes of an event, with the terminating zero */ };

struct events {
    struct log *log;
    uint64_t begun; /* by clock_now */
    uint64_t count; /* how many there were */
    char event[EVENTS][EVENT];
};

/* Logs an event, a text `WORD: TEXT`, at a level of log.h, and keeps it. */
void events_tell(struct events *events, const char *level, const char *format, ...) __attribute__((format(printf, 3, 4)));
/* Puts the events that are kept, the oldest first, as lines `SECONDS WORD TEXT`. Returns false where memory runs out. */
bool events_put(const struct events *events, struct text *to);

#endif
