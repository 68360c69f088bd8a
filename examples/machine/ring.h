/* Numbers that wait in order. */
#ifndef MACHINE_RING_H
#define MACHINE_RING_H

#include <stdbool.h>
#include <stdint.h>

enum { RING = 4096 };

struct ring { uint64_t item[RING]; unsigned from, to; };

static inline bool ring_is_empty(const struct ring *ring) { return ring->from == ring->to; }
static inline uint64_t ring_first(const struct ring *ring) { return ring->item[ring->from % RING]; }
static inline void ring_drop(struct ring *ring) { ring->from++; }
static inline void ring_clear(struct ring *ring) { ring->from = ring->to; }

/* No more than RING may wait. */
static inline void ring_put(struct ring *ring, uint64_t item) { ring->item[ring->to++ % RING] = item; }

#endif
