/* fleet_streams URL STREAMS READERS: streams of one server, each with a store that is changed and READERS that follow it. The stores that are
 * changed are in this process, the others in a second one. Each line of standard input is a phase, and is answered by a line
 * `COUNT SECONDS PRODUCERS FOLLOWERS MEDIAN`: how many entries were sent, in how long, the processor time of both processes, and the time of one
 * change until it was answered, all in seconds:
 *
 *   rest SECONDS       nothing is changed
 *   singles ROUNDS     in each round one item of each stream
 *   batches ROUNDS     in each round 256 items of each stream, as one entry
 *   alone CHANGES      single items of the first stream, each after the last one
 *
 * Used by bench/fleet. */
#include "ds_fleet.h"
#include <signal.h>
#include <stdatomic.h>
#include <stdio.h>
#include <stdlib.h>
#include <string.h>
#include <sys/epoll.h>
#include <sys/mman.h>
#include <sys/resource.h>
#include <sys/wait.h>
#include <time.h>
#include <unistd.h>

enum { BATCH = 256, NAMES = 4000, LINE = 64, EVENTS = 64, PATIENCE = 60 /* seconds */, MOST_TIMES = 10000 };

/* What the process of the followers reports. */
struct board { _Atomic uint64_t position; _Atomic double spent; _Atomic int is_ready, is_ended; };

struct store { struct ds_handle handle; struct ds_fleet *fleet; unsigned seq; uint64_t position; };

struct stores { struct store *store; int count, epoll; uint64_t position; /* of all of them together */ };

static double now(void) {
    struct timespec it;
    clock_gettime(CLOCK_MONOTONIC, &it);
    return (double)it.tv_sec + (double)it.tv_nsec / 1e9;
}

/* Returns the processor time of this process. */
static double spent(void) {
    struct rusage it;
    getrusage(RUSAGE_SELF, &it);
    return (double)(it.ru_utime.tv_sec + it.ru_stime.tv_sec) + (double)(it.ru_utime.tv_usec + it.ru_stime.tv_usec) / 1e6;
}

static void fail(const char *why) {
    fprintf(stderr, "fleet_streams: %s\n", why);
    exit(1);
}

/* ---- stores ---- */

static void join(struct stores *stores, int number, const char *url, int stream) {
    struct store *store = &stores->store[number];
    struct epoll_event event = {.events = EPOLLIN, .data = {.ptr = store}};
    char name[LINE];
    snprintf(name, sizeof name, "s%d", stream);
    struct ds_fleet_options options = {.url = url, .stream = name, .keep = 10000};
    *store = (struct store){.handle = DS_CLOSED};
    if (ds_open(&store->handle, 1, 0, 4096) || ds_fleet_open(&store->fleet, &store->handle, &options) != DS_FLEET_INSTEP) fail("no fleet");
    if (ds_fleet_step(store->fleet, PATIENCE * 1000) != DS_FLEET_INSTEP) fail("no server");
    if (epoll_ctl(stores->epoll, EPOLL_CTL_ADD, ds_fleet_bell(store->fleet), &event)) fail("no poller");
}

static struct stores joined(const char *url, int streams, int each) {
    struct stores stores = {.store = calloc((size_t)(streams * each), sizeof *stores.store), .count = streams * each, .epoll = epoll_create1(0)};
    if (!stores.store || stores.epoll < 0) fail("no memory");
    for (int i = 0; i < stores.count; i++) join(&stores, i, url, i / each);
    return stores;
}

static void step(struct stores *stores, struct store *store) {
    struct ds_fleet_state state;
    ds_fleet_step(store->fleet, 0);
    ds_fleet_state(store->fleet, &state);
    stores->position += state.position - store->position;
    store->position = state.position;
}

/* Steps each store whose poller is readable within `patience` milliseconds. */
static void turn(struct stores *stores, int patience) {
    struct epoll_event events[EVENTS];
    int count = epoll_wait(stores->epoll, events, EVENTS, patience);
    for (int i = 0; i < count; i++) step(stores, events[i].data.ptr);
}

static void follow(struct board *board, const char *url, int streams, int readers) {
    struct stores stores = joined(url, streams, readers);
    atomic_store(&board->is_ready, 1);
    while (!atomic_load(&board->is_ended)) {
        turn(&stores, 100);
        atomic_store(&board->spent, spent());
        atomic_store(&board->position, stores.position);
    }
    _exit(0);
}

/* Changes `count` items, each a newer version of one of NAMES, and begins to send them. */
static void change(struct store *store, int count) {
    static char text[BATCH * LINE];
    struct ds_answer answer;
    size_t length = 0;
    for (int i = 0; i < count; i++, store->seq++) {
        length += (size_t)snprintf(text + length, LINE, "host1.n%u u32 drv 1.%u = %u\n", store->seq % NAMES, store->seq + 1, store->seq);
    }
    struct ds_request request = {.command = DS_MERGE, .text_length = length};
    if (ds_call(&store->handle, &request, text, length, &answer) || answer.word != DS_MERGED) fail("not merged");
    ds_fleet_step(store->fleet, 0);
}

static bool is_told(const struct store *store) {
    struct ds_fleet_state state;
    ds_fleet_state(store->fleet, &state);
    return !state.untold;
}

static void wait_until_told(struct stores *stores, int count) {
    double end = now() + PATIENCE;
    for (int i = 0; i < count;) {
        if (is_told(&stores->store[i])) i++;
        else turn(stores, 100);
        if (now() > end) fail("not told");
    }
}

/* ---- phases ---- */

struct phase { double entries, items, median; };

static void rest(struct stores *stores, int seconds) {
    for (double end = now() + seconds; now() < end;) turn(stores, 100);
}

static struct phase change_all(struct stores *stores, int rounds, int items) {
    for (int round = 0; round < rounds; round++) {
        for (int i = 0; i < stores->count; i++) change(&stores->store[i], items);
        wait_until_told(stores, stores->count);
    }
    return (struct phase){.entries = (double)rounds * stores->count, .items = (double)rounds * stores->count * items};
}

static int rising(const void *a, const void *b) {
    double x = *(const double *)a, y = *(const double *)b;
    return (x > y) - (x < y);
}

static struct phase change_one(struct stores *stores, int changes) {
    static double took[MOST_TIMES];
    if (changes < 1 || changes > MOST_TIMES) fail("1 to 10000 changes");
    for (int i = 0; i < changes; i++) {
        double begun = now();
        change(&stores->store[0], 1);
        wait_until_told(stores, 1);
        took[i] = now() - begun;
    }
    qsort(took, (size_t)changes, sizeof *took, rising);
    return (struct phase){.entries = changes, .items = changes, .median = took[changes / 2]};
}

static struct phase run(struct stores *stores, const char *name, int count) {
    if (!strcmp(name, "singles")) return change_all(stores, count, 1);
    if (!strcmp(name, "batches")) return change_all(stores, count, BATCH);
    if (!strcmp(name, "alone")) return change_one(stores, count);
    rest(stores, count);
    return (struct phase){0};
}

int main(int count, char **words) {
    if (count != 4) fail("URL STREAMS READERS");
    struct rlimit limit;
    int streams = atoi(words[2]), readers = atoi(words[3]), number;
    if (!getrlimit(RLIMIT_NOFILE, &limit)) limit.rlim_cur = limit.rlim_max;
    setrlimit(RLIMIT_NOFILE, &limit);
    if (streams < 1 || readers < 1) fail("streams and readers are 1 or more");
    struct board *board = mmap(NULL, sizeof *board, PROT_READ | PROT_WRITE, MAP_SHARED | MAP_ANONYMOUS, -1, 0);
    signal(SIGPIPE, SIG_IGN);
    pid_t child = board == MAP_FAILED ? -1 : fork();
    if (child < 0) fail("no process");
    if (!child) follow(board, words[1], streams, readers);
    struct stores stores = joined(words[1], streams, 1);
    char name[LINE];
    uint64_t position = 0;
    while (!atomic_load(&board->is_ready)) turn(&stores, 100);
    for (puts("joined"), fflush(stdout); scanf("%63s %d", name, &number) == 2; fflush(stdout)) {
        double begun = now(), own = spent(), others = atomic_load(&board->spent);
        struct phase phase = run(&stores, name, number);
        position += (uint64_t)phase.items * (uint64_t)readers;
        for (double end = now() + PATIENCE; atomic_load(&board->position) < position;) {
            turn(&stores, 1);
            if (now() > end) fail("the others don't follow");
        }
        printf("%.0f %.6f %.6f %.6f %.9f\n", phase.entries, now() - begun, spent() - own, atomic_load(&board->spent) - others, phase.median);
    }
    atomic_store(&board->is_ended, 1);
    return waitpid(child, NULL, 0) != child;
}
