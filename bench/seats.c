/* seats HOW THREADS CALLS: threads share a store, and make CALLS calls together, half publications and half retrievals of numbers. HOW is
 *
 *     mutex   a pthread_mutex around ds_call
 *     wait    a desk, a seat for each thread, ds_seat_wait
 *     yield   the same, ds_seat_call and sched_yield after DS_ISBUSY
 *
 * It prints the nanoseconds from the first call to the last one, on the clock. */
#include "ds.h"
#include <inttypes.h>
#include <pthread.h>
#include <sched.h>
#include <stdio.h>
#include <stdlib.h>
#include <time.h>

enum { MOST = 60, KEYS = 64, RING = 256 };

static struct ds_handle store = DS_CLOSED;
static struct ds_desk desk = DS_CLOSED;
static pthread_mutex_t guard = PTHREAD_MUTEX_INITIALIZER;
static pthread_barrier_t start;
static char how;

struct job {
    struct ds_seat seat;
    unsigned number;
    uint64_t calls;
};

static void need(int holds, const char *what) {
    if (!holds) {
        fprintf(stderr, "seats: %s\n", what);
        exit(1);
    }
}

/* Carries out a request, whose answer has no text. */
static void ask(struct job *job, const struct ds_request *request) {
    struct ds_answer answer;
    uint64_t place;
    uint32_t word;
    if (how == 'm') {
        pthread_mutex_lock(&guard);
        word = ds_call(&store, request, NULL, 0, &answer);
        pthread_mutex_unlock(&guard);
    } else if (how == 'w') {
        word = ds_seat_wait(&job->seat, request, NULL, 0, &answer, &place);
    } else {
        while ((word = ds_seat_call(&job->seat, request, NULL, 0, &answer, &place)) == DS_ISBUSY) sched_yield();
    }
    need(word == 0 && answer.refusal == 0, "a call was refused");
}

static void name(struct ds_request *request, unsigned of, unsigned key) {
    char text[24];
    snprintf(text, sizeof text, "t%u.n%u", of, key);
    ds_set_name(request, text);
}

/* Publishes where each thread's driver runs, and a number under each of its keys. */
static void prepare(struct job *job, unsigned threads) {
    for (unsigned of = 0; of < threads; of++) {
        struct ds_request request = {.command = DS_PUBLISH, .slot = 2, .kinds = DS_LABEL, .epoch = 1, .value = 1};
        char text[8];
        request.value_slot = (uint16_t)(100 + of);
        snprintf(text, sizeof text, "t%u", of);
        ds_set_name(&request, text);
        ask(job, &request);
        request = (struct ds_request){.command = DS_PUBLISH, .generation = 1, .slot = (uint16_t)(100 + of), .kinds = DS_U32, .epoch = 1};
        for (unsigned key = 0; key < KEYS; key++) {
            name(&request, of, key);
            ask(job, &request);
        }
    }
}

static void *call(void *argument) {
    struct job *job = argument;
    struct ds_request publish = {.command = DS_PUBLISH, .generation = 1, .kinds = DS_U32, .epoch = 1, .overwrite = 1};
    struct ds_request retrieve = {.command = DS_RETRIEVE, .kinds = DS_U32};
    publish.slot = (uint16_t)(100 + job->number);
    pthread_barrier_wait(&start);
    for (uint64_t at = 0; at < job->calls; at++) {
        struct ds_request *request = at % 2 ? &publish : &retrieve;
        name(request, job->number, (unsigned)(at / 2 % KEYS));
        publish.seq = publish.value = (uint32_t)(1 + at);
        ask(job, request);
    }
    return NULL;
}

static uint64_t now(void) {
    struct timespec it;
    clock_gettime(CLOCK_MONOTONIC, &it);
    return (uint64_t)it.tv_sec * 1000000000u + (uint64_t)it.tv_nsec;
}

int main(int count, char **arguments) {
    unsigned threads = count == 4 ? (unsigned)atoi(arguments[2]) : 0;
    struct job jobs[MOST + 1];
    pthread_t ids[MOST];
    need(threads >= 1 && threads <= MOST, "seats HOW THREADS CALLS");
    how = arguments[1][0];
    memset(jobs, 0, sizeof jobs);
    need(ds_open(&store, 1, 0, RING) == 0 && ds_desk_open(&desk, 1, 0, RING, threads + 1) == 0, "out of memory");
    for (unsigned at = 0; at <= threads; at++) {
        jobs[at].number = at, jobs[at].calls = strtoull(arguments[3], NULL, 10) / threads;
        need(ds_seat_open(&desk, &jobs[at].seat) == 0, "no seat");
    }
    prepare(&jobs[threads], threads);
    pthread_barrier_init(&start, NULL, threads + 1);
    for (unsigned at = 0; at < threads; at++) {
        need(pthread_create(&ids[at], NULL, call, &jobs[at]) == 0, "no thread");
    }
    uint64_t begin = now();
    pthread_barrier_wait(&start);
    for (unsigned at = 0; at < threads; at++) {
        pthread_join(ids[at], NULL);
    }
    printf("%" PRIu64 "\n", now() - begin);
    return 0;
}
