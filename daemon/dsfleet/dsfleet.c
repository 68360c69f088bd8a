/* dsfleet: a store for the programs of one host, in step with those of other hosts over a redis stream.
 * docs/reference/fleet.md. */
#include "check.h"
#include "clients.h"
#include "clock.h"
#include "ds_fleet.h"
#include "log.h"
#include "notify.h"
#include "options.h"
#include "signals.h"
#include <errno.h>
#include <malloc.h>
#include <signal.h>
#include <stdio.h>
#include <stdlib.h>
#include <string.h>
#include <sys/resource.h>
#include <sys/signalfd.h>
#include <unistd.h>

enum {
    RING = 4096,
    LAST = 2 * SECOND, /* for answers at the end */
    REST = 100,        /* before clients are accepted again, after that failed */
    DESCRIPTORS = 32,  /* that aren't clients' */
    LARGE = 1 << 20    /* bytes of a large block of memory */
};

struct program {
    struct ds_handle store;
    struct ds_fleet *fleet;
    struct clients clients;
    struct place place;
    struct log log;
    const char *url;
    int signals;
    uint64_t begun, looked_at, admit_at; /* milliseconds; looked_at: when the lock was looked after */
    bool ended, logged_waiting;
};

/* ---- a turn ---- */

/* Accepts waiting clients, up to the limit. If that fails, say for lack of descriptors, the listener rests:
 * poll would report the listener again and again. */
static void admit(struct program *program) {
    struct pollfd waiting = {.fd = program->place.listener, .events = POLLIN};
    while (poll(&waiting, 1, 0) > 0) {
        bool is_full = program->clients.count == program->clients.limits.clients && !clients_drop_slowest(&program->clients, true);
        int client = is_full ? -1 : place_accept(&program->place);
        if (client >= 0 && clients_add(&program->clients, client)) continue;
        program->admit_at = clock_now() + REST;
        return;
    }
}

/* Waits for an event, and reads the clients' lines. */
static void wait_and_read(struct program *program, bool ready) {
    enum { SIGNALS, POLLER, LISTENER, FIRST_CLIENT };
    struct pollfd polled[FIRST_CLIENT + CLIENTS], *clients = polled + FIRST_CLIENT;
    size_t count = program->clients.count;
    bool rests = clock_now() < program->admit_at;
    polled[SIGNALS] = (struct pollfd){.fd = program->signals, .events = POLLIN};
    polled[POLLER] = (struct pollfd){.fd = ds_fleet_bell(program->fleet), .events = POLLIN};
    polled[LISTENER] = (struct pollfd){.fd = rests ? -1 : program->place.listener, .events = POLLIN};
    for (size_t i = 0; i < count; i++) clients[i] = clients_watched(&program->clients, program->clients.client[i]);
    int patience = rests ? REST : SECOND;
    if (poll(polled, FIRST_CLIENT + count, ready ? 0 : patience) <= 0) return;
    struct signalfd_siginfo signal;
    program->ended |= polled[SIGNALS].revents && read(program->signals, &signal, sizeof signal) > 0;
    for (size_t i = 0; i < count; i++) clients_read(program->clients.client[i], clients[i].revents);
    if (polled[LISTENER].revents) admit(program);
}

/* The address without user and password. */
static const char *public_part(const char *url) {
    static const char mark[] = "://";
    const char *front = strstr(url, mark), *rest = front ? front + strlen(mark) : url;
    const char *at = *rest == '/' ? NULL : strrchr(rest, '@');
    return at ? at + 1 : rest;
}

/* Logs once why dsfleet waits, if the socket isn't made soon. */
static void log_waiting(struct program *program, enum ds_fleet_word word) {
    bool is_soon = word == DS_FLEET_LATE && clock_now() < program->begun + SECOND;
    if (program->logged_waiting || program->place.listener >= 0 || is_soon) return;
    program->logged_waiting = true;
    log_say(&program->log, LOG_INFO, "waits: for the redis server %s; the socket %s is made once the store has caught up",
            public_part(program->url), program->place.path);
}

/* Does the work that is due once a second. */
static void run_each_second(struct program *program, enum ds_fleet_word word) {
    uint64_t now = clock_now();
    if (now < program->looked_at + SECOND) return;
    program->looked_at = now;
    place_keep(&program->place);
    clients_drop_idle(&program->clients);
    log_count(&program->log);
    notify("STATUS=%s, %zu clients\nWATCHDOG=1", ds_fleet_word(word), program->clients.count);
}

/* Returns GO_ON, or the status to end with. */
static int turn(struct program *program, bool *ready) {
    uint8_t owed[16] = {0};
    wait_and_read(program, *ready);
    clients_answer(&program->clients);
    enum ds_fleet_word word = ds_fleet_step(program->fleet, 0);
    ds_fleet_owed(program->fleet, owed);
    clients_owe(&program->clients, owed);
    *ready = clients_write(&program->clients);
    if (word == DS_FLEET_INSTEP && program->place.listener < 0) {
        if (!place_serve(&program->place)) return FAILED;
        notify("READY=1");
    }
    log_waiting(program, word);
    run_each_second(program, word);
    bool is_unfit = word == DS_FLEET_BADSCOPE || word == DS_FLEET_BADNAME;
    bool is_misused = is_unfit && program->place.listener < 0; /* a dsfleet that serves may find the scope again */
    if (word != DS_FLEET_CLOSED && !is_misused) return GO_ON;
    log_say(&program->log, LOG_ERROR, "%s: %s", ds_fleet_word(word), options_explained(word));
    return is_misused ? USAGE : FAILED;
}

/* Serves until a signal comes, and then as long as clients wait for answers, but not for ever. */
static int run(struct program *program) {
    bool ready = false;
    int status = GO_ON;
    while (!program->ended && status == GO_ON) status = turn(program, &ready);
    notify("STOPPING=1");
    uint64_t end = clock_now() + LAST;
    while (status == GO_ON && !clients_are_done(&program->clients) && clock_now() < end) status = turn(program, &ready);
    return status == GO_ON ? DONE : status;
}

/* ---- beginning and ending ---- */

/* Returns large blocks to the system when they are freed. By default glibc keeps blocks of a size that was freed once. */
static void give_memory_back(void) {
#ifdef M_MMAP_THRESHOLD
    mallopt(M_MMAP_THRESHOLD, LARGE);
    mallopt(M_TRIM_THRESHOLD, 4 * LARGE);
#endif
}

/* Raises the limit of descriptors to the number for all clients, as far as the system allows. */
static void allow_descriptors(struct program *program) {
    struct rlimit limit;
    rlim_t wanted = program->clients.limits.clients + DESCRIPTORS;
    if (getrlimit(RLIMIT_NOFILE, &limit) || limit.rlim_cur >= wanted) return;
    rlim_t allowed = limit.rlim_cur;
    limit.rlim_cur = limit.rlim_max < wanted ? limit.rlim_max : wanted;
    if (!setrlimit(RLIMIT_NOFILE, &limit)) allowed = limit.rlim_cur;
    if (allowed == wanted) return;
    log_say(&program->log, LOG_WARN, "descriptors: %llu are allowed, so fewer than %zu clients are served at once",
            (unsigned long long)allowed, program->clients.limits.clients);
}

static int open_all(struct program *program, const struct options *options) {
    static const int ends[] = {SIGTERM, SIGINT, SIGHUP};
    give_memory_back();
    if (options->shows_password) {
        log_say(&program->log, LOG_WARN, "password: other users saw it in the URL until now: use --password-file, or DSFLEET_PASSWORD");
    }
    allow_descriptors(program);
    if (ds_open(&program->store, run_number(), 0, RING)) {
        log_say(&program->log, LOG_ERROR, "noroom: out of memory");
        return FAILED;
    }
    enum ds_fleet_word word = ds_fleet_open(&program->fleet, &program->store, &options->fleet);
    if (word != DS_FLEET_INSTEP) {
        log_say(&program->log, LOG_ERROR, "%s: %s", ds_fleet_word(word), options_explained(word));
        return word == DS_FLEET_NOROOM || word == DS_FLEET_SYSTEM ? FAILED : USAGE;
    }
    program->clients.store = &program->store;
    program->clients.fleet = program->fleet;
    program->clients.log = &program->log;
    program->begun = clock_now();
    program->signals = signals_open(ends, sizeof ends / sizeof *ends);
    if (program->signals >= 0) return place_lock(&program->place) ? GO_ON : FAILED;
    log_say(&program->log, LOG_ERROR, "signalfd: %s", strerror(errno));
    return FAILED;
}

static void close_all(struct program *program) {
    clients_close(&program->clients);
    place_leave(&program->place);
    if (program->signals >= 0) close(program->signals);
    ds_fleet_close(program->fleet);
    ds_close(&program->store);
    log_close(&program->log);
}

int main(int count, char **words) {
    struct options options = {.fleet = {.tell = log_tell}};
    struct program program = {.store = DS_CLOSED, .place = {.lock = -1, .listener = -1}, .signals = -1};
    int status = options_read(count, words, &options);
    if (status != GO_ON) return status;
    if (options.checks) {
        status = check_server(&options.fleet) ? DONE : UNFIT;
        free(options.url);
        return status;
    }
    log_open(&program.log, options.logs_json);
    program.place.path = options.socket;
    program.place.access = options.access;
    program.place.log = &program.log;
    program.clients.limits = options.limits;
    program.clients.rights = options.rights;
    program.url = options.fleet.url;
    options.fleet.context = &program.log;
    status = open_all(&program, &options);
    if (status == GO_ON) status = run(&program);
    close_all(&program);
    free(options.url);
    return status;
}
