/* RS's clock. Counts ticks, and leaves out the time in which dsrs itself was stopped, since no heartbeat was read then. */
#ifndef DSRS_TICKS_H
#define DSRS_TICKS_H

#include <stdint.h>

#define TICKS_NEVER UINT64_MAX

struct ticks {
    uint64_t length; /* milliseconds of one tick */
    uint64_t origin; /* when tick 0 was, by clock_now */
    uint64_t now;
    uint64_t due;    /* the tick for which the next turn was ordered, or TICKS_NEVER */
    uint64_t leap;   /* by how many ticks a turn may come later than that */
};

/* Begins at tick 0. */
void ticks_open(struct ticks *ticks, uint64_t length);
/* Lets time pass. A turn later than its order by more than `leap` counts `leap` ticks. Returns how many ticks were left out. */
uint64_t ticks_pass(struct ticks *ticks);
/* Returns when a tick begins, by clock_now. */
uint64_t ticks_begin(const struct ticks *ticks, uint64_t tick);

#endif
