/* The waiting of ds_seat_wait, in plain C. It is about speed alone: no promise of a call at a seat depends on it. tools/build adds this part
 * to libds_c.a.
 *
 * Threads that wait form a line, a mutex. The first in the line tries, and lets other threads run, until its call is carried out; the
 * others sleep. So of any number of waiting threads one spins. A thread that found the turn or the line taken goes into the line at once in
 * its next calls, as long as it finds others there.
 *
 * The line is one for all desks of a process. After TRIES a thread leaves the line, and rests between its tries: a desk whose turn is lost
 * keeps no other desk's threads. */
#define _POSIX_C_SOURCE 200809L /* nanosleep */

#include "ds.h"
#include <pthread.h>
#include <sched.h>
#include <time.h>

enum {
    LINED_UP = 64,  /* calls that a thread makes in the line after it found the turn or the line taken */
    TRIES = 1000,   /* of the first in the line */
    REST = 1000000, /* nanoseconds */
};

static pthread_mutex_t line = PTHREAD_MUTEX_INITIALIZER;
static _Thread_local unsigned lined_up; /* calls that are left to make in the line */

/* The words of one ds_seat_wait. */
struct words {
    struct ds_seat *seat;
    const struct ds_request *request;
    const char *texts;
    size_t texts_length;
    struct ds_answer *answer;
    uint64_t *place;
};

static uint32_t call(const struct words *it) {
    return ds_seat_call(it->seat, it->request, it->texts, it->texts_length, it->answer, it->place);
}

static uint32_t call_in_line(const struct words *it) {
    uint32_t word = DS_ISBUSY;
    if (pthread_mutex_trylock(&line) != 0) {
        lined_up = LINED_UP;
        pthread_mutex_lock(&line);
    }
    lined_up--;
    for (int tries = 0; tries < TRIES && (word = call(it)) == DS_ISBUSY; tries++) sched_yield();
    pthread_mutex_unlock(&line);
    return word;
}

uint32_t ds_seat_wait(struct ds_seat *seat, const struct ds_request *request, const char *texts, size_t texts_length,
                      struct ds_answer *answer, uint64_t *place) {
    const struct words it = {seat, request, texts, texts_length, answer, place};
    if (lined_up == 0) {
        uint32_t word = call(&it);
        if (word != DS_ISBUSY) return word;
        lined_up = LINED_UP;
    }
    uint32_t word = call_in_line(&it);
    while (word == DS_ISBUSY) {
        nanosleep(&(struct timespec){.tv_nsec = REST}, NULL);
        word = call(&it);
    }
    return word;
}
