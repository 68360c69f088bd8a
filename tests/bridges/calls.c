/* calls URL NOBODY: makes the calls of ds_fleet.h, correctly and misused. It prints the lines of calls.out. NOBODY is an address on which
 * nothing listens. */
#include "ds_fleet.h"
#include <errno.h>
#include <netinet/in.h>
#include <poll.h>
#include <signal.h>
#include <stdbool.h>
#include <stdio.h>
#include <stdlib.h>
#include <string.h>
#include <sys/resource.h>
#include <sys/socket.h>
#include <time.h>
#include <unistd.h>

enum { SUB = 40, KEYS = 3200, CHANGES = 3, MOST_STEPS = 30000 /* of a millisecond at least */ };

static char long_password[256 + 1]; /* filled by main */

static long milliseconds(void) {
    struct timespec it;
    clock_gettime(CLOCK_MONOTONIC, &it);
    return it.tv_sec * 1000 + it.tv_nsec / 1000000;
}

static void opens(const char *what, struct ds_handle *store, struct ds_fleet_options options) {
    struct ds_fleet *fleet;
    printf("open, %s: %s\n", what, ds_fleet_word(ds_fleet_open(&fleet, store, &options)));
    if (fleet) puts("and there is one");
    ds_fleet_close(fleet);
}

/* Prints the word of a step, and whether it took less or more time than it should. */
static void steps(const char *what, struct ds_fleet *fleet, unsigned patience) {
    long begun = milliseconds();
    const char *word = ds_fleet_word(ds_fleet_step(fleet, patience));
    long took = milliseconds() - begun;
    printf("step, %s: %s%s%s\n", what, word, took + 5 < (long)patience ? ", sooner" : "", took > (long)patience + 400 ? ", later" : "");
}

static struct ds_fleet *joined(struct ds_handle *store, const char *url) {
    struct ds_fleet_options options = {.url = url};
    struct ds_fleet *fleet;
    if (ds_fleet_open(&fleet, store, &options) != DS_FLEET_INSTEP) exit(1);
    return fleet;
}

static void offer(struct ds_handle *store, const char *line) {
    struct ds_request request = {.command = DS_MERGE, .text_length = strlen(line)};
    struct ds_answer answer;
    if (ds_call(store, &request, line, strlen(line), &answer)) exit(1);
}

static uint64_t held(struct ds_handle *store) {
    struct ds_request request = {.command = DS_SNAPSHOT};
    struct ds_answer answer;
    if (ds_call(store, &request, NULL, 0, &answer)) exit(1);
    return answer.pieces;
}

static void misuse(struct ds_handle *store, const char *url) {
    struct ds_handle closed = DS_CLOSED;
    opens("a closed handle", &closed, (struct ds_fleet_options){.url = url});
    opens("no address", store, (struct ds_fleet_options){.url = NULL});
    opens("a bad address", store, (struct ds_fleet_options){.url = "redis:/h"});
    opens("an address of TLS", store, (struct ds_fleet_options){.url = "rediss://h"});
    opens("Sentinels without a master's name", store, (struct ds_fleet_options){.url = "redis-sentinel://h,i"});
    opens("nine addresses", store, (struct ds_fleet_options){.url = "redis://a,b,c,d,e,f,g,h,i"});
    opens("eight addresses", store, (struct ds_fleet_options){.url = "redis://a,b,c,d,e,f,g:1,[::1]:2/3"});
    opens("a password of 256 bytes", store, (struct ds_fleet_options){.url = url, .password = long_password});
    opens("a bad name", store, (struct ds_fleet_options){.url = url, .stream = "a b"});
    opens("a bad pattern", store, (struct ds_fleet_options){.url = url, .pattern = "a(", .kinds = 15});
    opens("no pattern", store, (struct ds_fleet_options){.url = url, .kinds = 15});
    opens("kinds that are none", store, (struct ds_fleet_options){.url = url, .pattern = "a", .kinds = 16});
    ds_fleet_close(NULL);
}

/* Opens a fleet with too few descriptors, from none to one less than it needs: errno has the reason. */
static void out_of_descriptors(struct ds_handle *store, const char *url) {
    struct rlimit before, few;
    struct ds_fleet *fleet;
    int next = dup(0);
    close(next);
    getrlimit(RLIMIT_NOFILE, &before);
    for (int left = 0; left < 3; left++) {
        few = before;
        few.rlim_cur = (rlim_t)(next + left);
        setrlimit(RLIMIT_NOFILE, &few);
        errno = 0;
        const char *word = ds_fleet_word(ds_fleet_open(&fleet, store, &(struct ds_fleet_options){.url = url}));
        int why = errno;
        setrlimit(RLIMIT_NOFILE, &before);
        printf("open, %d descriptors left: %s, %s\n", left, word, why == EMFILE ? "EMFILE" : "another error");
    }
}

/* Steps with a server that isn't there, and with one that answers nothing, take no longer than they should. */
static void waits(struct ds_handle *store, const char *nobody) {
    struct sockaddr_in address = {.sin_family = AF_INET, .sin_addr = {htonl(INADDR_LOOPBACK)}};
    socklen_t length = sizeof address;
    char url[64];
    struct ds_fleet *fleet = joined(store, nobody);
    steps("nobody there, no patience", fleet, 0);
    steps("nobody there", fleet, 200);
    ds_fleet_close(fleet);
    int mute = socket(AF_INET, SOCK_STREAM, 0);
    if (bind(mute, (struct sockaddr *)&address, sizeof address) || listen(mute, 4) || getsockname(mute, (struct sockaddr *)&address, &length)) exit(1);
    snprintf(url, sizeof url, "redis://127.0.0.1:%d", ntohs(address.sin_port));
    fleet = joined(store, url);
    steps("no answer, no patience", fleet, 0);
    steps("no answer", fleet, 200);
    ds_fleet_close(fleet);
    close(mute);
}

/* Steps when the poller is readable, until the other store's items are there. */
static void rung(struct ds_fleet *fleet, struct ds_handle *store, uint64_t wanted) {
    struct pollfd poller = {.fd = ds_fleet_bell(fleet), .events = POLLIN};
    for (int times = 0; times < 100 && held(store) < wanted; times++)
        if (poll(&poller, 1, 1000) > 0) ds_fleet_step(fleet, 0);
    printf("by the poller: %llu held\n", (unsigned long long)held(store));
}

static void shares(struct ds_handle *one, struct ds_handle *two, const char *url) {
    struct ds_request follow = {.command = DS_SUBSCRIBE, .sub = SUB, .kinds = DS_U32, .text_length = 2};
    struct ds_answer answer;
    struct ds_fleet_state state;
    uint8_t owed[16] = {0};
    offer(one, "before u32 d 1.1 = 1\n");
    struct ds_fleet *here = joined(one, url), *there = joined(two, url);
    ds_fleet_state(here, &state);
    printf("before: %s, caught up %d, untold %llu\n", ds_fleet_word(state.word), state.caught_up, (unsigned long long)state.untold);
    printf("step: %s\n", ds_fleet_word(ds_fleet_step(here, 5000)));
    printf("step: %s\n", ds_fleet_word(ds_fleet_step(there, 5000)));
    printf("caught up: %llu held\n", (unsigned long long)held(two));
    if (ds_call(two, &follow, "a.", 2, &answer)) exit(1);
    offer(one, "ab u32 d 1.2 = 1\n");
    uint64_t mark = ds_fleet_mark(here);
    printf("told: %d\n", ds_fleet_is_told(here, mark));
    printf("step: %s\n", ds_fleet_word(ds_fleet_step(here, 5000)));
    printf("told: %d\n", ds_fleet_is_told(here, mark));
    rung(there, two, 2);
    ds_fleet_owed(there, owed);
    printf("owed: %d\n", owed[SUB / 8] >> SUB % 8 & 1);
    memset(owed, 0, sizeof owed);
    ds_fleet_owed(there, owed);
    printf("owed again: %d\n", owed[SUB / 8] >> SUB % 8 & 1);
    ds_fleet_state(there, &state);
    printf("after: caught up %d, position %llu, untold %llu, told %llu\n", state.caught_up, (unsigned long long)state.position,
           (unsigned long long)state.untold, (unsigned long long)state.entries_told);
    ds_close(two);
    printf("step of a closed store: %s\n", ds_fleet_word(ds_fleet_step(there, 100)));
    ds_fleet_close(there);
    ds_fleet_close(here);
    printf("the store is open still: %llu held\n", (unsigned long long)held(one));
}

/* A fleet of another scope than the stream's is refused. */
static void of_another_scope(struct ds_handle *store, const char *url) {
    struct ds_fleet_options options = {.url = url, .pattern = "a.*", .kinds = DS_U32};
    struct ds_fleet_state state;
    struct ds_fleet *fleet;
    if (ds_fleet_open(&fleet, store, &options) != DS_FLEET_INSTEP) exit(1);
    steps("another scope", fleet, 5000);
    ds_fleet_state(fleet, &state);
    printf("state: %s, caught up %d: %s\n", ds_fleet_word(state.word), state.caught_up, state.said);
    ds_fleet_close(fleet);
}

static unsigned outbox_megabytes(const struct ds_fleet *fleet) {
    struct ds_fleet_state state;
    ds_fleet_state(fleet, &state);
    return (unsigned)(state.untold >> 20);
}

/* Offers changes of many keys, each several times, of which none is told yet. Returns the mark of the first ones. */
static uint64_t offer_much(struct ds_fleet *fleet, struct ds_handle *store) {
    uint64_t first = 0;
    for (int made = 0; made < KEYS * CHANGES; made++) {
        char line[1100];
        int key = made % KEYS, change = made / KEYS + 1;
        snprintf(line, sizeof line, "k%d mem d 1.%d = %01000d\n", key, change, change);
        offer(store, line);
        if (made % 100) continue; /* else the journal would be too short */
        uint64_t mark = ds_fleet_mark(fleet);
        if (!first) first = mark;
    }
    return first;
}

/* All that is held is told in place of all changes, in several rounds, and the first change counts as told when the last one does. */
static void has_long_outbox(const char *url) {
    struct ds_handle store = DS_CLOSED;
    struct ds_fleet_options options = {.url = url, .stream = "much"};
    struct ds_fleet_state state;
    struct ds_fleet *fleet;
    if (ds_open(&store, 1, 0, 256) || ds_fleet_open(&fleet, &store, &options) != DS_FLEET_INSTEP) exit(1);
    uint64_t first = offer_much(fleet, &store), last = ds_fleet_mark(fleet);
    bool is_early = false;
    printf("much: %u MB untold\n", outbox_megabytes(fleet));
    for (int times = 0; times < MOST_STEPS && !ds_fleet_is_told(fleet, last); times++) {
        is_early |= ds_fleet_is_told(fleet, first);
        ds_fleet_step(fleet, 1);
    }
    ds_fleet_state(fleet, &state);
    printf("much: told %d, early %d, %llu entries, %llu untold\n", ds_fleet_is_told(fleet, first), is_early,
           (unsigned long long)state.entries_told, (unsigned long long)state.untold);
    ds_fleet_close(fleet);
    ds_close(&store);
}

/* The same while a replica is missing: a change was added, and doesn't count as told. */
static void has_much_without_its_replica(const char *url) {
    struct ds_handle store = DS_CLOSED;
    struct ds_fleet_options options = {.url = url, .stream = "lacks", .replicas = 1, .within = 20};
    struct ds_fleet_state state;
    struct ds_fleet *fleet;
    if (ds_open(&store, 1, 0, 256) || ds_fleet_open(&fleet, &store, &options) != DS_FLEET_INSTEP) exit(1);
    offer(&store, "first u32 d 1.0 = 1\n");
    for (int times = 0; times < MOST_STEPS && ds_fleet_step(fleet, 1) != DS_FLEET_DENIED; times++) continue;
    ds_fleet_state(fleet, &state);
    printf("without its replica: %s\n", state.said);
    uint64_t first = offer_much(fleet, &store);
    printf("without its replica: %u MB untold\n", outbox_megabytes(fleet));
    for (int times = 0; times < MOST_STEPS && outbox_megabytes(fleet) > 8; times++) ds_fleet_step(fleet, 1);
    printf("without its replica: %u MB untold, told %d\n", outbox_megabytes(fleet), ds_fleet_is_told(fleet, first));
    ds_fleet_close(fleet);
    ds_close(&store);
}

int main(int count, char **words) {
    struct ds_handle one = DS_CLOSED, two = DS_CLOSED;
    if (count != 3 || ds_open(&one, 1, 0, 256) || ds_open(&two, 1, 0, 256)) return 1;
    signal(SIGPIPE, SIG_IGN);
    memset(long_password, 'x', sizeof long_password - 1);
    misuse(&one, words[1]);
    out_of_descriptors(&one, words[1]);
    waits(&one, words[2]);
    shares(&one, &two, words[1]);
    of_another_scope(&one, words[1]);
    has_long_outbox(words[1]);
    has_much_without_its_replica(words[1]);
    return ds_close(&one) != 0;
}
