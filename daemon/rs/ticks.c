/* RS's clock. See ticks.h. */
#include "ticks.h"
#include "clock.h"

void ticks_open(struct ticks *ticks, uint64_t length) {
    *ticks = (struct ticks){.length = length, .origin = clock_now(), .due = TICKS_NEVER, .leap = 1};
}

uint64_t ticks_pass(struct ticks *ticks) {
    uint64_t passed = (clock_now() - ticks->origin) / ticks->length - ticks->now, left_out = 0;
    uint64_t until_due = ticks->due > ticks->now ? ticks->due - ticks->now : 0;
    if (ticks->due != TICKS_NEVER && passed > until_due + ticks->leap) {
        left_out = passed - ticks->leap;
        ticks->origin += left_out * ticks->length;
    }
    ticks->now += passed - left_out;
    return left_out;
}

uint64_t ticks_begin(const struct ticks *ticks, uint64_t tick) { return ticks->origin + tick * ticks->length; }
