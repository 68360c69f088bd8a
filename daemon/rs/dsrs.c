/* dsrs: a supervisor of processes. RS of the library decides, and dsrs carries the decisions out. docs/guide/supervise.md. */
#include "clock.h"
#include "groups.h"
#include "notify_socket.h"
#include "leftovers.h"
#include "notify.h"
#include "outputs.h"
#include "place.h"
#include "reload.h"
#include "rs.h"
#include "signals.h"
#include "tasks.h"
#include "usage.h"
#include <dirent.h>
#include <errno.h>
#include <fcntl.h>
#include <limits.h>
#include <poll.h>
#include <signal.h>
#include <stdio.h>
#include <stdlib.h>
#include <string.h>
#include <sys/epoll.h>
#include <sys/prctl.h>
#include <sys/resource.h>
#include <sys/signalfd.h>
#include <sys/stat.h>
#include <sys/timerfd.h>
#include <unistd.h>

enum {
    TICK = 10, TICK_MOST = 60000,   /* milliseconds */
    GRACE = 2000, GRACE_MOST = 3600000,
    SLOT = 16, SLOT_MOST = 1023,
    EACH_SERVICE = 5 + ANCILLARY,   /* descriptors besides that of its peer */
    DESCRIPTORS = 32,               /* of dsrs itself */
    SOON = 10,                      /* milliseconds until an event is reported again for which memory ran out */
    REST = 100,                     /* milliseconds before a client is taken in again, where none could be */
    LAST_LOGS = 300,                /* milliseconds that log programs have after the grace of services */
    STRAYS_LOOKS = 50,              /* for strays at the end, while any are left, */
    STRAYS_PAUSE = 10,              /* and milliseconds between them */
    PLACE_LOOKS = 50, PLACE_PAUSE = 20, /* the same at the start, while the socket is taken */
    FOLDER = PLACE_PATH - 16        /* bytes of the folder of sockets: each socket has up to 15 more */
};

static const char help[] =
    "usage: dsrs [OPTION ..] SETTINGS.toml SERVICES_DIR SOCKET\n"
    "\n"
    "Starts the services of the settings, SERVICES_DIR/LABEL/run each, and starts them again when they fail, as RS decides.\n"
    "A file SERVICES_DIR/LABEL/down keeps a service down until it is asked for. dsask(1) sends lines to SOCKET.\n"
    "\n"
    "  --tick MS           milliseconds of one tick: 10\n"
    "  --grace MS          between SIGTERM and SIGKILL of a service that is to go down: 2000\n"
    "  --slot N            the first slot of endpoints, so that hosts don't share them: 16\n"
    "  --generations FILE  keeps the next generation: SERVICES_DIR/.generation\n"
    "  --log-format json   writes each line of standard error as an object of JSON: text\n"
    "  --cgroup FOLDER     a cgroup, version 2, in which each process gets its own: that of dsrs, if systemd delegates it\n"
    "  --stream URL        keeps the store in step with those of other hosts, over this redis server, as dsfleet does;\n"
    "                      `-` takes the URL from the environment, DSRS_STREAM\n"
    "  --stream-name NAME  the front of the names of the keys in redis: ds\n"
    "  --version           prints the version\n"
    "  -h, --help          prints this\n"
    "\n"
    "Signals: TERM and INT stop all services at once, and end it; a second one kills them. HUP reads the settings\n"
    "again: unless they have a fault, what they leave out stops, and what is new in them starts.\n"
    "Statuses: 0 ended by a signal, 2 usage, 3 a failure, which standard error tells.\n";

#define STREAM "DSRS_STREAM"

struct options {
    size_t tick, grace, slot;
    bool logs_json;
    const char *settings, *services, *socket, *cgroup, *stream, *stream_name, *generations;
};

struct host {
    struct rs rs;
    struct log log;
    struct place place;
    char folder[FOLDER];
    struct watch listener, signals, timer, notify_socket;
    const char *cgroup;
    int epoll;
    uint64_t timer_at, admit_at; /* by clock_now: for when the timer is set; when clients are taken in again */
};

static int failed(struct host *host, const char *what) {
    log_say(&host->log, LOG_ERROR, "%s: %s", what, strerror(errno));
    return FAILED;
}

/* ---- words ---- */

static bool read_stream(void *stream, char *url) {
    const char *taken = strcmp(url, "-") ? url : getenv(STREAM);
    *(const char **)stream = taken;
    return taken;
}

static int finish(const struct usage *usage, int count, char **words, struct options *options) {
    static char generations[PATH_MAX];
    if (count != 3) return usage_refuse(usage, "settings, a folder of services and a socket are wanted");
    options->settings = words[0];
    options->services = words[1];
    options->socket = words[2];
    if (strlen(options->socket) >= PLACE_PATH) return usage_refuse(usage, "the socket's path is too long");
    snprintf(generations, sizeof generations, "%s/.generation", options->services);
    if (!options->generations) options->generations = generations;
    return GO_ON;
}

static int read_words(int count, char **words, struct options *it) {
    const struct option_row rows[] = {
        {"tick", .number = &it->tick, .least = 1, .most = TICK_MOST, .fault = "a tick has 1 to 60000 milliseconds"},
        {"grace", .number = &it->grace, .most = GRACE_MOST, .fault = "a grace has 0 to 3600000 milliseconds"},
        {"slot", .number = &it->slot, .least = SLOT, .most = SLOT_MOST, .fault = "the first slot is 16 to 1023"},
        {"generations", .text = &it->generations}, {"cgroup", .text = &it->cgroup}, {"stream-name", .text = &it->stream_name},
        {"stream", .read = read_stream, .context = &it->stream, .fault = STREAM " isn't set"},
        {"log-format", .read = log_read_format, .context = &it->logs_json, .fault = "a log's format is text or json"},
        {0},
    };
    const struct usage usage = {.name = "dsrs", .help = help, .version = "dsrs " DS_VERSION "\n", .rows = rows};
    int first, status = usage_read(&usage, count, words, &first);
    return status == GO_ON ? finish(&usage, count - first, words + first, it) : status;
}

/* ---- beginning and ending ---- */

/* Removes the sockets that a dsrs left which ended without a word, and nothing else. */
static void empty_folder(const char *path) {
    DIR *folder = opendir(path);
    struct stat it;
    for (struct dirent *entry; folder && (entry = readdir(folder));) {
        bool is_socket = !fstatat(dirfd(folder), entry->d_name, &it, AT_SYMLINK_NOFOLLOW) && S_ISSOCK(it.st_mode);
        if (is_socket) unlinkat(dirfd(folder), entry->d_name, 0);
    }
    if (folder) closedir(folder);
}

/* Whether a path is a folder of this user, in which nobody else may make files. */
static bool is_own_folder(const char *path) {
    struct stat it;
    return !lstat(path, &it) && S_ISDIR(it.st_mode) && it.st_uid == geteuid() && !(it.st_mode & (S_IWGRP | S_IWOTH));
}

/* Makes the folder of sockets, which any process may pass through. The path is absolute, since services have other working
 * directories. */
static int open_folder(struct host *host) {
    char path[PLACE_PATH + 2], *whole;
    snprintf(path, sizeof path, "%s.d", host->place.path);
    bool is_new = !mkdir(path, 0711);
    if (is_new ? chmod(path, 0711) != 0 : errno != EEXIST) return failed(host, "socket"); /* whatever the umask is */
    if (!is_own_folder(path)) {
        log_say(&host->log, LOG_ERROR, "socket: %s: it isn't a folder that this user alone may write, and is left alone", path);
        return FAILED;
    }
    if (!(whole = realpath(path, NULL))) return failed(host, "socket");
    int length = snprintf(host->folder, sizeof host->folder, "%s", whole);
    free(whole);
    errno = ENAMETOOLONG;
    return length < (int)sizeof host->folder ? GO_ON : failed(host, "socket");
}

/* A limit isn't raised, since services would have it, too. */
static void look_at_limit(struct host *host) {
    struct rlimit limit;
    rlim_t wanted = PEERS + EACH_SERVICE * SERVICES + DESCRIPTORS;
    if (getrlimit(RLIMIT_NOFILE, &limit) || limit.rlim_cur >= wanted) return;
    log_say(&host->log, LOG_WARN, "descriptors: %llu are allowed, and up to %llu may be needed",
            (unsigned long long)limit.rlim_cur, (unsigned long long)wanted);
}

/* A child of a dsrs that was killed keeps the socket and the lock until the child executes a service's program, or the kernel kills it. */
static void wait_for_place(const struct place *place) {
    for (int times = 0; times < PLACE_LOOKS && place_is_taken(place); times++) poll(NULL, 0, PLACE_PAUSE);
}

static int open_all(struct host *host) {
    static const int signals[] = {SIGTERM, SIGINT, SIGHUP, SIGCHLD};
    struct rs *rs = &host->rs;
    look_at_limit(host);
    wait_for_place(&host->place);
    if (!place_lock(&host->place)) return FAILED;
    if (open_folder(host) != GO_ON) return FAILED;
    host->epoll = rs->peers.epoll = rs->instances.epoll = epoll_create1(EPOLL_CLOEXEC);
    if (host->epoll < 0) return failed(host, "epoll");
    if (!watch_open(&host->signals, host->epoll, signals_open(signals, sizeof signals / sizeof *signals), EPOLLIN)) return failed(host, "signalfd");
    int timer = timerfd_create(CLOCK_MONOTONIC, TFD_NONBLOCK | TFD_CLOEXEC);
    if (!watch_open(&host->timer, host->epoll, timer, EPOLLIN)) return failed(host, "timerfd");
    if (prctl(PR_SET_CHILD_SUBREAPER, 1)) return failed(host, "subreaper"); /* dsrs reaps the children of a dead instance */
    if (!rs_open(rs)) return FAILED; /* settings with a fault end nobody */
    if (!cgroups_open(&rs->instances.cgroups, host->cgroup, &rs->events)) return FAILED;
    rs->instances.is_clear = leftovers_end(host->folder, &rs->events);
    empty_folder(host->folder);
    if (!notify_socket_open(&host->notify_socket, host->epoll, host->folder)) return failed(host, "notify");
    if (!place_serve(&host->place)) return FAILED;
    return watch_open(&host->listener, host->epoll, host->place.listener, EPOLLIN) ? GO_ON : failed(host, "epoll");
}

static void close_all(struct host *host) {
    peers_close(&host->rs.peers);
    rs_close(&host->rs);
    cgroups_close(&host->rs.instances.cgroups);
    if (host->notify_socket.file >= 0) empty_folder(host->folder);
    if (*host->folder) rmdir(host->folder); /* unless the folder has an earlier run's sockets */
    place_leave(&host->place);
    log_close(&host->log);
}

/* ---- a turn ---- */

static void begin_end(struct host *host) {
    struct rs *rs = &host->rs;
    notify("STOPPING=1");
    events_tell(&rs->events, LOG_INFO, "ends: all services go down");
    rs->ending = true;
    rs->left = rs->services;
    rs->ends_at = clock_now() + rs->instances.grace + LAST_LOGS;
}

/* Kills the processes that are within their grace period. Processes that end later get none. */
static void end_graces(struct rs *rs) {
    rs->instances.grace = 0;
    rs->ends_at = clock_now();
    tasks_hurry(rs);
    for (struct service *it = rs->kept; it < rs->kept + KEPT; it++)
        if (it->logger.ends && it->logger.due) it->logger.due = clock_now();
}

/* The first signal stops services and log programs with their grace, and a second one without. */
static void take_end(struct host *host) {
    if (host->rs.ending) end_graces(&host->rs);
    else begin_end(host);
}

static void read_signals(struct host *host) {
    struct signalfd_siginfo signal;
    struct instances *instances = &host->rs.instances;
    host->signals.ready = 0;
    while (read(host->signals.file, &signal, sizeof signal) == sizeof signal) {
        if (signal.ssi_signo == SIGTERM || signal.ssi_signo == SIGINT) take_end(host);
        if (signal.ssi_signo == SIGHUP && !host->rs.ending) reload_begin(&host->rs);
        if (signal.ssi_signo == SIGCHLD) instances_stir(instances);
    }
}

static void pass_time(struct host *host) {
    uint64_t left_out = ticks_pass(&host->rs.ticks);
    if (!left_out) return;
    events_tell(&host->rs.events, LOG_WARN, "late: %llu ticks aren't counted", (unsigned long long)left_out);
}

static void admit(struct host *host) {
    struct peers *peers = &host->rs.peers;
    host->listener.ready = 0;
    while (peers->of_public < PEERS_PUBLIC) {
        int client = place_accept(&host->place);
        if (client < 0 && errno != EAGAIN) host->admit_at = clock_now() + REST; /* as out of descriptors */
        if (client < 0) return;
        uid_t user = rights_user(client);
        bool is_full = peers->of_public >= PEERS_PUBLIC - PEERS_OWN && !peers_may_order(user);
        if (is_full) close(client);
        else peers_add(peers, client, NULL, user);
    }
}

/* The last lines of an instance that died are answered before its death is reported. */
static void reap(struct rs *rs) {
    for (struct instance *it = rs->instances.first; it; it = it->next) {
        if (!it->pidfd.ready) continue;
        if (it->is_up) peers_finish(rs, it);
        if (instances_note_end(&rs->instances, it)) tasks_note_end(rs, it);
    }
}

/* Instances that were started get their voice. */
static void take_in(struct rs *rs) {
    for (struct instance *it = rs->instances.first; it; it = it->next) {
        if (it->socket < 0 || !it->is_up) continue;
        peers_add(&rs->peers, it->socket, it, 0);
        it->socket = -1;
    }
}

/* Returns the earlier of two times, of which 0 is none. */
static uint64_t earlier(uint64_t a, uint64_t b) { return !a || (b && b < a) ? b : a; }

/* Returns when RS has to get its next tick, or 0 if no tick is due. */
static uint64_t next_tick(struct rs *rs) {
    rs->ticks.due = rs_due(rs);
    if (rs->ticks.due == TICKS_NEVER) return 0;
    return ticks_begin(&rs->ticks, rs->ticks.due > rs->ticks.now ? rs->ticks.due : rs->ticks.now + 1);
}

/* Listens for clients, unless there are too many or the last try to accept one failed. */
static void watch_listener(struct host *host) {
    bool rests = host->admit_at || host->rs.peers.of_public >= PEERS_PUBLIC;
    watch_for(&host->listener, host->epoll, rests ? 0 : EPOLLIN);
}

/* Sets the timer to the next turn, or stops it with 0. */
static void set_timer(struct host *host, uint64_t at) {
    if (at == host->timer_at) return;
    struct itimerspec when = {.it_value = {.tv_sec = (time_t)(at / 1000), .tv_nsec = (long)(at % 1000) * 1000000}};
    timerfd_settime(host->timer.file, TFD_TIMER_ABSTIME, &when, NULL);
    host->timer_at = at;
}

static void read_timer(struct host *host) {
    uint64_t times;
    host->timer.ready = 0;
    if (read(host->timer.file, &times, sizeof times) == sizeof times) host->timer_at = 0;
    if (host->admit_at && clock_now() >= host->admit_at) host->admit_at = 0;
}

/* Lines are read before heartbeats are missed, and the lines of a dead instance before its death. Memory that an event may point to is
 * freed at the end of the turn. Returns false once all is down. */
static bool turn(struct host *host, bool *more) {
    struct rs *rs = &host->rs;
    watch_wait(host->epoll, *more);
    pass_time(host);
    if (host->timer.ready) read_timer(host);
    if (host->signals.ready) read_signals(host);
    if (host->listener.ready) admit(host);
    if (host->notify_socket.ready) notify_socket_read(&host->notify_socket, rs);
    bool has_lines = outputs_pass(rs);
    peers_turn(rs);
    reap(rs);
    tasks_turn(rs); /* deaths before heartbeats are missed */
    rs_tick(rs);
    *more = rs->ending ? rs_go_down(rs) : reload_turn(rs);
    tasks_turn(rs);
    take_in(rs);
    rs_keep_step(rs);
    *more |= peers_send(&rs->peers) | has_lines;
    bool is_down = rs->ending && !rs->left && !rs->instances.first;
    if (is_down) outputs_end_logs(rs);
    uint64_t due = tasks_due(rs);
    if (rs->repeats) due = clock_now() + SOON;
    rs->repeats = false;
    bool logs = outputs_turn_logs(rs, &due);
    outputs_watch(rs, &due);
    watch_listener(host);
    set_timer(host, earlier(earlier(due, next_tick(rs)), host->admit_at));
    log_count(&host->log);
    return !is_down || logs;
}

/* Processes of the last instances end before dsrs does, unless they can't be killed. */
static void end_strays(struct instances *all) {
    for (int times = 0; times < STRAYS_LOOKS && groups_kill_strays(all); times++) poll(NULL, 0, STRAYS_PAUSE);
}

/* Serves until a signal arrives. */
static void run(struct host *host) {
    bool more = true;
    reload_turn(&host->rs);
    notify("READY=1");
    while (turn(host, &more)) {}
    end_strays(&host->rs.instances);
}

static void prepare(struct host *host, const struct options *options) {
    struct rs *rs = &host->rs;
    host->listener.file = host->signals.file = host->timer.file = host->notify_socket.file = -1;
    /* Any process may read; each other right is judged by the line. */
    host->place = (struct place){.path = options->socket, .access = {.mode = 0666, .group = NO_GROUP}, .log = &host->log, .lock = -1, .listener = -1};
    host->cgroup = options->cgroup;
    rs->path = options->settings;
    rs->slot = (uint16_t)options->slot;
    rs->events.log = rs->outlet.log = &host->log;
    rs->outlet.room.file = host->log.descriptor;
    rs->events.begun = clock_now();
    rs->generations = (struct generations){.path = options->generations, .file = -1};
    rs->stream = (struct stream){.url = options->stream, .name = options->stream_name, .poller.file = -1};
    rs->instances.cgroups.folder = -1;
    rs->instances.services = options->services;
    rs->instances.endpoints = host->folder;
    rs->instances.events = &rs->events;
    rs->instances.tick = (uint64_t)options->tick;
    rs->instances.grace = (uint64_t)options->grace;
    ticks_open(&rs->ticks, (uint64_t)options->tick);
}

int main(int count, char **words) {
    static struct host host; /* all zeros, so the store is closed */
    struct options options = {.tick = TICK, .grace = GRACE, .slot = SLOT};
    int status = read_words(count, words, &options);
    if (status != GO_ON) return status;
    unsetenv(STREAM); /* services don't inherit the variable */
    log_open(&host.log, options.logs_json);
    prepare(&host, &options);
    status = open_all(&host);
    if (status == GO_ON) run(&host);
    close_all(&host);
    return status == GO_ON ? DONE : status;
}
