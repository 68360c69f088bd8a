/* fleet_stores URL STORES BATCHES: one store that merges items, and others, each in a process of its own, that follow it over a
 * stream. It prints items a second by batches of 256, and singly; how long a change takes to reach the last of the others, beside
 * a PING; and how long after the last batch all agree. Used by bench/fleet. */
#include "ds_fleet.h"
#include <hiredis/hiredis.h>
#include <poll.h>
#include <sched.h>
#include <signal.h>
#include <stdatomic.h>
#include <stdio.h>
#include <stdlib.h>
#include <string.h>
#include <sys/mman.h>
#include <sys/resource.h>
#include <sys/wait.h>
#include <time.h>
#include <unistd.h>

enum { MOST = 64, BATCH = 256, NAMES = 4000, SINGLES = 2000, PINGS = 2000 };

/* What the others report: how many items took effect in each. */
struct board { _Atomic uint64_t position[MOST]; _Atomic int ready, ended; };

static double now(void) {
    struct timespec it;
    clock_gettime(CLOCK_MONOTONIC, &it);
    return (double)it.tv_sec + (double)it.tv_nsec / 1e9;
}

static void fail(const char *why) {
    fprintf(stderr, "fleet_stores: %s\n", why);
    exit(1);
}

static struct ds_fleet *joined(struct ds_handle *store, const char *url) {
    struct ds_fleet_options options = {.url = url};
    struct ds_fleet *fleet;
    if (ds_open(store, 1, 0, 4096) || ds_fleet_open(&fleet, store, &options) != DS_FLEET_INSTEP) fail("no fleet");
    for (int times = 0; ds_fleet_step(fleet, 1000) != DS_FLEET_INSTEP; times++)
        if (times == 30) fail("no server");
    return fleet;
}

/* A follower steps whenever its poller is readable, and reports its position. */
static void follow(struct board *board, int number, const char *url) {
    struct ds_handle store = DS_CLOSED;
    struct ds_fleet *fleet = joined(&store, url);
    struct ds_fleet_state state;
    atomic_fetch_add(&board->ready, 1);
    while (!atomic_load(&board->ended)) {
        struct pollfd poller = {.fd = ds_fleet_bell(fleet), .events = POLLIN};
        poll(&poller, 1, 1000);
        ds_fleet_step(fleet, 0);
        ds_fleet_state(fleet, &state);
        atomic_store(&board->position[number], state.position);
    }
    ds_fleet_close(fleet);
    ds_close(&store);
    _exit(0);
}

static void merge(struct ds_handle *store, const char *lines, size_t length) {
    struct ds_request request = {.command = DS_MERGE, .text_length = length};
    struct ds_answer answer;
    if (ds_call(store, &request, lines, length, &answer) || answer.word != DS_MERGED) fail("not merged");
}

static void told(struct ds_fleet *fleet) {
    if (ds_fleet_step(fleet, 30000) != DS_FLEET_INSTEP) fail("not told");
}

static void wait_for(struct board *board, int others, uint64_t position) {
    double end = now() + 60;
    for (int i = 0; i < others; i++)
        while (atomic_load(&board->position[i]) < position)
            if (sched_yield() || now() > end) fail("a store doesn't follow");
}

static int rising(const void *a, const void *b) {
    double x = *(const double *)a, y = *(const double *)b;
    return x < y ? -1 : x > y;
}

/* Returns the median of `count` times. */
static double median(double *times, int count) {
    qsort(times, (size_t)count, sizeof *times, rising);
    return times[count / 2];
}

/* Returns how long the server takes to answer a command. */
static double asked(int port, const char *command) {
    redisContext *redis = redisConnect("127.0.0.1", port);
    if (!redis || redis->err) fail("no server");
    static double took[PINGS];
    for (int i = 0; i < PINGS; i++) {
        double before = now();
        freeReplyObject(redisCommand(redis, command));
        took[i] = now() - before;
    }
    redisFree(redis);
    return median(took, PINGS);
}

/* Returns the processor time of this process. */
static double spent(void) {
    struct rusage it;
    getrusage(RUSAGE_SELF, &it);
    return (double)(it.ru_utime.tv_sec + it.ru_stime.tv_sec) + (double)(it.ru_utime.tv_usec + it.ru_stime.tv_usec) / 1e6;
}

struct publisher { struct ds_handle store; struct ds_fleet *fleet; unsigned seq; uint64_t items; char text[BATCH * 64]; };

/* Merges `count` items, each a newer version of one of NAMES. */
static void put(struct publisher *it, int count) {
    size_t length = 0;
    for (int i = 0; i < count; i++, it->seq++)
        length += (size_t)snprintf(it->text + length, 64, "host1.n%u u32 drv 1.%u = %u\n", it->seq % NAMES, it->seq + 1, it->seq);
    merge(&it->store, it->text, length);
    it->items += (uint64_t)count;
}

static void by_batches(struct publisher *it, struct board *board, int others, int batches) {
    double begun = now(), own = 0, last;
    for (int i = 0; i < batches; i++) {
        double before = now();
        put(it, BATCH);
        own += now() - before;
        ds_fleet_step(it->fleet, 0);
    }
    told(it->fleet);
    last = now();
    wait_for(board, others, it->items);
    double took = now() - begun;
    printf("batches %.0f items/s to %d (its own merging alone %.0f items/s), all agree %.1f ms after the last answer\n", batches * BATCH / took, others,
           batches * BATCH / own, (now() - last) * 1000);
}

static void singly(struct publisher *it, struct board *board, int others, int port) {
    double ping = asked(port, "PING"), entry = asked(port, "XADD other * from 0123456789abcdef0123456789abcdef items host1.n1_u32_drv_1.100000_=_100000");
    static double answered[SINGLES], seen[SINGLES];
    double used = 0;
    for (int i = 0; i < SINGLES; i++) {
        double before = now(), own = spent();
        put(it, 1);
        told(it->fleet);
        answered[i] = now() - before;
        used += spent() - own;
        wait_for(board, others, it->items);
        seen[i] = now() - before;
    }
    double until_answered = median(answered, SINGLES), until_seen = median(seen, SINGLES);
    printf("single %.0f us until it is answered, %.0f us until the last of %d has it, %.0f us of processor time\n", until_answered * 1e6,
           until_seen * 1e6, others, used / SINGLES * 1e6);
    printf("a PING %.0f us: %.1f and %.1f of them; the server's own XADD of such an entry %.0f us: %.1f and %.1f\n", ping * 1e6, until_answered / ping,
           until_seen / ping, entry * 1e6, until_answered / entry, until_seen / entry);
}

/* Makes single changes, each sent before the next, while the others follow as they can. */
static void in_a_row(struct publisher *it, struct board *board, int others) {
    double begun = now();
    for (int i = 0; i < SINGLES; i++) {
        put(it, 1);
        told(it->fleet);
    }
    wait_for(board, others, it->items);
    printf("in a row %.0f entries/s of one change each, to %d\n", SINGLES / (now() - begun), others);
}

int main(int count, char **words) {
    if (count != 4) fail("URL STORES BATCHES");
    int others = atoi(words[2]) - 1, port = atoi(strrchr(words[1], ':') + 1);
    if (others < 1 || others > MOST) fail("2 to 65 stores");
    struct board *board = mmap(NULL, sizeof *board, PROT_READ | PROT_WRITE, MAP_SHARED | MAP_ANONYMOUS, -1, 0);
    if (board == MAP_FAILED) fail("no memory");
    signal(SIGPIPE, SIG_IGN);
    for (int i = 0; i < others; i++) {
        pid_t child = fork();
        if (child < 0) fail("no process");
        if (!child) follow(board, i, words[1]);
    }
    static struct publisher it = {.store = DS_CLOSED};
    it.fleet = joined(&it.store, words[1]);
    while (atomic_load(&board->ready) < others) usleep(1000);
    by_batches(&it, board, others, atoi(words[3]));
    in_a_row(&it, board, others);
    singly(&it, board, others, port);
    atomic_store(&board->ended, 1);
    while (wait(NULL) > 0) {}
    ds_fleet_close(it.fleet);
    return ds_close(&it.store) != 0;
}
