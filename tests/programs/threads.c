/* threads [THREADS CALLS [SECONDS [SEED]]]: threads share a store at a desk, each at a seat of its own, while one more takes the notices of
 * a server. Then the calls are made again, by one thread at a store of its own, in the order of their places. Each place comes once, each
 * answer is the same, byte for byte, with its text, and each notice that was taken is owed by a call below its floor. It prints what the
 * calls on desks and seats return, too, and that threads which are cancelled or end between their calls leave a desk that others use.
 *
 * With SECONDS there are rounds of 1 to THREADS threads that make up to CALLS calls each, until so many seconds are over. */
#include "ds.h"
#include <inttypes.h>
#include <pthread.h>
#include <stdio.h>
#include <stdlib.h>
#include <time.h>

enum { KEYS = 16, RING = 256, SERVER = 5, SUB = 8 * SERVER, MOST_THREADS = 60, TEXT = 48, ROOM = 1 << 16 };

struct record {
    uint64_t place, text_sum;
    struct ds_request request;
    struct ds_answer answer;
    char text[TEXT];
};

struct job {
    struct ds_seat seat;
    unsigned number, threads;
    uint64_t calls, random;
    uint64_t notices, *floors; /* how many takes had a notice, and the floor of each */
    uint32_t seq;
    struct record *records;
};

static int over; /* whether the callers have ended */

static void need(int holds, const char *what) {
    if (!holds) {
        fprintf(stderr, "threads: %s\n", what);
        exit(1);
    }
}

/* Returns a checksum (FNV-1a) of the text of an answer. */
static uint64_t sum_of(const char *text, size_t length) {
    uint64_t sum = 14695981039346656037u;
    for (size_t at = 0; at < length; at++) {
        sum = (sum ^ (unsigned char)text[at]) * 1099511628211u;
    }
    return sum;
}

static uint64_t drawn(struct job *job) {
    job->random ^= job->random << 13, job->random ^= job->random >> 7, job->random ^= job->random << 17;
    return job->random;
}

/* Draws a call that reads what all have: a page of eight changes, what came since a position, and who has an endpoint; or a merge. */
static void draw_other(struct job *job, struct record *to, uint64_t by) {
    static const uint32_t commands[] = {DS_PAGE, DS_SINCE, DS_MERGE, DS_NAMEOF};
    struct ds_request *request = &to->request;
    request->command = commands[by % 4];
    request->incarnation = 7, request->max = 8, request->position = by / 4 % (4 * job->calls);
    request->generation = 1, request->slot = (uint16_t)(100 + by / 4 % job->threads);
    if (request->command == DS_MERGE) {
        snprintf(to->text, TEXT, "x%u.n u32 x%u 1.%" PRIu64 " = 1\n", job->number, job->number, by / 4 % 1000);
        request->text_length = strlen(to->text);
    }
}

/* Draws the next call of a thread. It publishes numbers and strings of its own, deletes them, and retrieves and checks what all have. */
static void draw(struct job *job, struct record *to) {
    uint64_t by = drawn(job);
    unsigned kind = by % 10, key = by / 16 % KEYS, of = (unsigned)(by >> 16) % job->threads;
    char name[24];
    memset(to, 0, sizeof *to);
    struct ds_request *request = &to->request;
    if (kind >= 8) {
        draw_other(job, to, by >> 24);
        return;
    }
    request->command = kind < 4 ? DS_PUBLISH : kind == 4 ? DS_DELETE : kind == 5 ? DS_CHECK : DS_RETRIEVE;
    request->kinds = key % 2 ? DS_U32 : DS_STR;
    request->sub = SUB, request->max = 8;
    if (kind <= 4) {
        of = job->number;
        request->generation = 1, request->slot = (uint16_t)(100 + of);
        request->epoch = 1, request->seq = job->seq++;
        request->overwrite = 1, request->value = (uint32_t)(by >> 32);
        snprintf(to->text, TEXT, "%" PRIx64, by);
        request->text_length = strlen(to->text);
    }
    snprintf(name, sizeof name, "t%u.n%u", of, key);
    ds_set_name(request, name);
}

/* Makes a thread's calls, and records them. Its places rise. */
static void *call(void *argument) {
    struct job *job = argument;
    char *room = malloc(ROOM);
    struct ds_given given;
    need(room != NULL, "out of memory");
    for (uint64_t at = 0; at < job->calls; at++) {
        struct record *it = &job->records[at];
        draw(job, it);
        memset(&it->answer, 0xAA, sizeof it->answer);
        need(ds_seat_wait(&job->seat, &it->request, it->text, TEXT, &it->answer, &it->place) == 0, "a call failed");
        need(at == 0 || it->place > job->records[at - 1].place, "a place went back");
        need(ds_seat_items(&job->seat, 0, room, ROOM, &given) == 0 && given.count == it->answer.pieces, "a text is missing");
        it->text_sum = sum_of(room, given.length);
    }
    free(room);
    return NULL;
}

/* Keeps the floor of a take that had a notice. */
static void keep(struct job *job, uint8_t bits, uint64_t floor) {
    if (bits) {
        need(job->notices < job->calls, "there are more notices than calls");
        job->floors[job->notices++] = floor;
    }
}

/* Takes notices until the callers have ended. The floor never falls. */
static void *listen_to(void *argument) {
    struct job *job = argument;
    uint64_t floor = 0, last = 0;
    uint8_t bits = 0;
    while (!__atomic_load_n(&over, __ATOMIC_SEQ_CST)) {
        need(ds_seat_take(&job->seat, SERVER, &bits, &floor) == 0 && floor >= last && bits <= 1, "a take failed");
        last = floor;
        keep(job, bits, floor);
        sched_yield();
    }
    need(ds_seat_take(&job->seat, SERVER, &bits, &floor) == 0, "a take failed");
    keep(job, bits, floor);
    need(ds_seat_take(&job->seat, SERVER, &bits, &floor) == 0 && bits == 0, "a notice is left");
    return NULL;
}

static int by_place(const void *one, const void *other) {
    const struct record *x = one, *y = other;
    return x->place < y->place ? -1 : x->place > y->place;
}

/* Makes all calls again, at a store of one thread. The notices that were taken up to a floor are at most those that calls below it owe. */
static void replay(struct record *all, uint64_t count, const struct job *listener) {
    uint64_t owed = 0;
    struct ds_handle store = DS_CLOSED;
    struct ds_answer answer;
    struct ds_given given;
    char *room = malloc(ROOM);
    need(room != NULL && ds_open(&store, 7, 0, RING) == 0, "out of memory");
    qsort(all, count, sizeof *all, by_place);
    for (uint64_t at = 0; at < count; at++) {
        need(all[at].place == at, "a place is missing");
        memset(&answer, 0xAA, sizeof answer);
        need(ds_call(&store, &all[at].request, all[at].text, TEXT, &answer) == 0, "the store is closed");
        need(memcmp(&answer, &all[at].answer, sizeof answer) == 0, "an answer differs");
        need(ds_items(&store, 0, room, ROOM, &given) == 0 && sum_of(room, given.length) == all[at].text_sum, "a text differs");
        if (ds_is_owed(&answer, SUB)) {
            need(owed >= listener->notices || at < listener->floors[owed], "a notice came before its change");
            owed++;
        }
    }
    need(listener->notices > 0 && listener->notices <= owed, "there are no notices, or more than are owed");
    free(room);
    ds_close(&store);
}

/* The first calls, before any thread: a label for each thread, and the subscription. */
static void begin(struct ds_seat *seat, struct record *all, unsigned threads) {
    for (unsigned at = 0; at <= threads; at++) {
        struct record *it = &all[at];
        memset(it, 0, sizeof *it);
        if (at < threads) {
            it->request = (struct ds_request){.command = DS_PUBLISH, .slot = 2, .kinds = DS_LABEL, .epoch = 1, .value = 1};
            it->request.value_slot = (uint16_t)(100 + at);
            snprintf(it->text, TEXT, "t%u", at);
            ds_set_name(&it->request, it->text);
        } else {
            it->request = (struct ds_request){.command = DS_SUBSCRIBE, .sub = SUB, .kinds = 15, .initial = 1, .text_length = 2};
            strcpy(it->text, ".*");
        }
        memset(&it->answer, 0xAA, sizeof it->answer);
        need(ds_seat_call(seat, &it->request, it->text, TEXT, &it->answer, &it->place) == 0 && it->place == at, "a first call failed");
        it->text_sum = sum_of("", 0);
    }
}

/* Opens a seat for each job, and starts its thread. */
static void start(struct ds_desk *desk, struct job *jobs, pthread_t *ids, unsigned threads, uint64_t calls, uint64_t seed) {
    __atomic_store_n(&over, 0, __ATOMIC_SEQ_CST); /* 1 since the end of the round before */
    for (unsigned at = 0; at <= threads; at++) {
        struct job *job = &jobs[at];
        need(ds_seat_open(desk, &job->seat) == 0, "a seat is missing");
        job->number = at, job->threads = threads, job->calls = at < threads ? calls : (threads + 1) + threads * calls;
        job->random = 88172645463325252u + 977 * at + 104729 * seed;
        need(pthread_create(&ids[at], NULL, at < threads ? call : listen_to, job) == 0, "no thread");
    }
}

/* Ends the callers, and then the listener. */
static void end(struct job *jobs, pthread_t *ids, unsigned threads) {
    for (unsigned at = 0; at <= threads; at++) {
        if (at == threads) __atomic_store_n(&over, 1, __ATOMIC_SEQ_CST);
        pthread_join(ids[at], NULL);
    }
    for (unsigned at = 0; at <= threads; at++) {
        need(ds_seat_close(&jobs[at].seat) == 0, "a seat isn't open");
    }
}

static void together(unsigned threads, uint64_t calls, uint64_t seed) {
    struct ds_desk desk = DS_CLOSED;
    struct ds_seat home = DS_CLOSED;
    struct job jobs[MOST_THREADS + 1];
    pthread_t ids[MOST_THREADS + 1];
    uint64_t first = threads + 1, count = first + threads * calls;
    struct record *all = malloc(count * sizeof *all);
    memset(jobs, 0, sizeof jobs);
    need(all != NULL && ds_desk_open(&desk, 7, 0, RING, threads + 2) == 0 && ds_seat_open(&desk, &home) == 0, "out of memory");
    begin(&home, all, threads);
    for (unsigned at = 0; at < threads; at++) {
        jobs[at].records = all + first + at * calls;
    }
    jobs[threads].floors = malloc(count * sizeof(uint64_t));
    need(jobs[threads].floors != NULL, "out of memory");
    start(&desk, jobs, ids, threads, calls, seed);
    need(ds_desk_close(&desk) == DS_ISBUSY, "a desk is closed while a seat is open");
    end(jobs, ids, threads);
    need(ds_seat_close(&home) == 0 && ds_desk_close(&desk) == 0, "it isn't open");
    replay(all, count, &jobs[threads]);
    free(jobs[threads].floors);
    free(all);
}

/* Makes calls until it is cancelled between two of them; every second thread ends by itself. It doesn't close its seat. */
static void *be_gone(void *argument) {
    struct job *job = argument;
    struct ds_request request = {.command = DS_RETRIEVE, .kinds = DS_U32};
    struct ds_answer answer;
    uint64_t place;
    ds_set_name(&request, "mtu");
    for (;;) {
        need(ds_seat_wait(&job->seat, &request, NULL, 0, &answer, &place) == 0, "a call failed");
        job->calls++;
        if (job->number % 2 && job->calls == 1000) pthread_exit(NULL);
        pthread_testcancel();
    }
    return NULL;
}

/* Threads are cancelled or end, and leave their seats open. The calls that they made are counted, and another seat's calls follow. */
static void gone(void) {
    enum { THREADS = 8 };
    struct ds_desk desk = DS_CLOSED;
    struct ds_seat home = DS_CLOSED;
    struct job jobs[THREADS];
    pthread_t ids[THREADS];
    struct ds_request request = {.command = DS_NAMEOF, .slot = 2};
    struct ds_answer answer;
    uint64_t place = 0, made = 0;
    memset(jobs, 0, sizeof jobs);
    need(ds_desk_open(&desk, 1, 0, 16, THREADS + 1) == 0 && ds_seat_open(&desk, &home) == 0, "out of memory");
    for (unsigned at = 0; at < THREADS; at++) {
        jobs[at].number = at;
        need(ds_seat_open(&desk, &jobs[at].seat) == 0 && pthread_create(&ids[at], NULL, be_gone, &jobs[at]) == 0, "no seat, or no thread");
    }
    for (unsigned at = 0; at < THREADS; at++) {
        need(at % 2 || pthread_cancel(ids[at]) == 0, "a thread isn't there");
        pthread_join(ids[at], NULL);
        made += jobs[at].calls;
        need(ds_seat_wait(&home, &request, NULL, 0, &answer, &place) == 0 && answer.word == DS_NAMED, "a call failed");
    }
    need(place + 1 == made + THREADS, "a call is lost, or counted twice");
    need(ds_desk_close(&desk) == DS_ISBUSY, "a desk is closed while a seat is open");
    for (unsigned at = 0; at < THREADS; at++) {
        need(ds_seat_call(&jobs[at].seat, &request, NULL, 0, &answer, &place) == 0, "a seat isn't free");
        need(ds_seat_close(&jobs[at].seat) == 0, "a seat isn't open");
    }
    need(ds_seat_close(&home) == 0 && ds_desk_close(&desk) == 0, "it isn't open");
}

static void said(const char *what, uint32_t refusal) { printf("%s: %s\n", what, refusal ? ds_refusal_text(refusal) : "done"); }

/* What the calls on desks and seats return. */
static void words(void) {
    struct ds_desk desk = DS_CLOSED;
    struct ds_seat one = DS_CLOSED, other = DS_CLOSED;
    struct ds_request request = {.command = DS_RETRIEVE, .kinds = DS_U32};
    struct ds_answer answer = {0};
    struct ds_given given = {0};
    uint64_t place = 77, floor = 77;
    uint8_t bits = 77;
    char room[8];
    said("no seats", ds_desk_open(&desk, 1, 0, 16, 0));
    said("65 seats of a bad ring", ds_desk_open(&desk, 1, 0, 0, 65));
    said("a bad ring", ds_desk_open(&desk, 1, UINT64_MAX, 0, 1));
    said("a bad first position", ds_desk_open(&desk, 1, UINT64_MAX, 16, 1));
    said("a seat of a closed desk", ds_seat_open(&desk, &one));
    said("one seat", ds_desk_open(&desk, 1, 0, 16, 1));
    said("a desk again", ds_desk_open(&desk, 1, 0, 16, 1));
    said("a call at a closed seat", ds_seat_call(&one, &request, NULL, 0, &answer, &place));
    said("a take at a closed seat", ds_seat_take(&one, 0, &bits, &floor));
    said("a text of a closed seat", ds_seat_items(&one, 0, room, sizeof room, &given));
    said("a seat", ds_seat_open(&desk, &one));
    said("the seat again", ds_seat_open(&desk, &one));
    said("a second seat", ds_seat_open(&desk, &other));
    said("a call without a name", ds_seat_call(&one, &request, NULL, 0, &answer, &place));
    printf("its answer is %s, at place %" PRIu64 "\n", ds_word_text(answer.word), place);
    ds_set_name(&request, "mtu");
    said("a retrieve", ds_seat_call(&one, &request, NULL, 0, &answer, &place));
    printf("its answer is %s by %s, at place %" PRIu64 "\n", ds_word_text(answer.word), ds_refusal_text(answer.refusal), place);
    said("a take of server 16", ds_seat_take(&one, 16, &bits, &floor));
    printf("bits %u, floor %" PRIu64 "\n", bits, floor);
    said("a take", ds_seat_take(&one, 0, &bits, &floor));
    printf("bits %u, floor %" PRIu64 "\n", bits, floor);
    said("the desk with its seat", ds_desk_close(&desk));
    said("the seat is closed", ds_seat_close(&one));
    said("the seat is closed again", ds_seat_close(&one));
    said("another seat of that desk", ds_seat_open(&desk, &one));
    said("the desk is closed", ds_desk_close(&desk));
    said("the desk is closed again", ds_desk_close(&desk));
}

/* Rounds of drawn sizes, until the time is over. */
static void rounds(unsigned threads, uint64_t calls, time_t seconds, uint64_t seed) {
    struct job drawing = {.random = 88172645463325252u + seed};
    uint64_t count = 0, made = 0;
    for (time_t end = time(NULL) + seconds; time(NULL) < end; count++) {
        unsigned some = 1 + (unsigned)(drawn(&drawing) % threads);
        uint64_t each = 1 + drawn(&drawing) % calls;
        together(some, each, drawn(&drawing));
        gone();
        made += some * each;
    }
    printf("%" PRIu64 " rounds, %" PRIu64 " calls: the answers are those of one thread\n", count, made);
}

int main(int count, char **arguments) {
    unsigned threads = count > 1 ? (unsigned)atoi(arguments[1]) : 8;
    uint64_t calls = count > 2 ? strtoull(arguments[2], NULL, 10) : 2000;
    need(threads >= 1 && threads <= MOST_THREADS && calls > 0, "1 to 60 threads, and at least one call");
    if (count > 3) {
        rounds(threads, calls, atol(arguments[3]), count > 4 ? strtoull(arguments[4], NULL, 10) : 1);
        return 0;
    }
    words();
    together(threads, calls, 0);
    for (uint64_t seed = 1; seed <= 50; seed++) {
        together(1 + (unsigned)(seed % 4), 40, seed);
    }
    printf("the answers of %u threads are those of one\n", threads);
    gone();
    puts("threads that are cancelled or end between their calls leave a desk that others use");
    return 0;
}
