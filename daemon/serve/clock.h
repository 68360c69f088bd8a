/* The monotonic clock, which no administrator sets. */
#ifndef SERVE_CLOCK_H
#define SERVE_CLOCK_H

#include <stdint.h>
#include <time.h>

enum { SECOND = 1000 /* milliseconds */ };

/* Returns milliseconds since some moment before the program began. */
static inline uint64_t clock_now(void) {
    struct timespec it;
    clock_gettime(CLOCK_MONOTONIC, &it);
    return (uint64_t)it.tv_sec * SECOND + (uint64_t)it.tv_nsec / 1000000;
}

#endif
