/* Whether a server will do. See check.h. */
#include "check.h"
#include "answers.h"
#include "clock.h"
#include "master.h"
#include "options.h"
#include <poll.h>
#include <stdio.h>
#include <stdlib.h>
#include <string.h>

static const char version_name[] = "redis_version:";

enum {
    LEAST_VERSION = 7,
    TURN = 20,      /* milliseconds between two looks at a connection */
    LIMIT = 5000,   /* for the whole check */
    MOVES = 4       /* from one node of a cluster to another */
};

/* The commands that a bridge sends, each with words that are as good as any: they are queued, and then discarded. */
static const char *const commands[] = {
    "XADD %s:items * from check items x", "XLEN %s:items", "XREAD COUNT 1 STREAMS %s:items 0-0", "XINFO STREAM %s:items",
    "XRANGE %s:items - +", "XTRIM %s:items MINID 0", "HSETNX %s:snapshot scope x", "HGET %s:snapshot at", "HMGET %s:snapshot at",
    "HSET %s:snapshot at x", "HSTRLEN %s:snapshot items", "HINCRBY %s:snapshot trimmed 0", "HGETALL %s:digests", "HDEL %s:digests x",
};

static const char fault[] = "fault", warning[] = "warning";

/* Prints a line; `todo` says the fault, or the remedy. */
static bool report(bool is_good, const char *bad, const char *what, const char *todo) {
    if (is_good) printf("good %s\n", what);
    else printf("%s %s: %s\n", bad, what, todo);
    return is_good;
}

static const char *stream_of(const struct ds_fleet_options *options) { return options->stream ? options->stream : "ds"; }

/* Requests of a bridge, here in forms without an effect. */
static void ask_others(struct link *link, const struct ds_fleet_options *options, const char *stream) {
    link_ask(link, "EVAL %s 1 %s:items", "return 0", stream);
    link_ask(link, "DISCARD");
    link_ask(link, "UNWATCH");
    link_ask(link, "MULTI");
    link_ask(link, "EXEC");
    if (options->replicas) link_ask(link, "WAIT 0 1");
}

/* Waits for a master and its answers. Returns why there are none, or NULL. */
static const char *ask_server(struct master *master, struct link *link, const struct ds_fleet_options *options) {
    const char *stream = stream_of(options);
    uint64_t end = clock_now() + LIMIT;
    enum host_found found = HOST_SOUGHT;
    while ((found = master_find(master, clock_now())) == HOST_SOUGHT) {
        if (clock_now() > end) return "no address was found in time";
        poll(NULL, 0, TURN);
        master->sentinel.quiet = false;
    }
    if (found == HOST_UNKNOWN) return master->said;
    if (!link_open(link, &master->call, clock_now())) return link->said;
    link_ask(link, "INFO");
    link_ask(link, "WATCH %s:snapshot", stream);
    link_ask(link, "MULTI");
    for (size_t i = 0; i < sizeof commands / sizeof *commands; i++) link_ask(link, commands[i], stream);
    ask_others(link, options, stream);
    for (;;) {
        enum link_state state = link_turn(link, clock_now());
        if (state == LINK_ANSWERED) return NULL;
        if (state != LINK_WAITS) return link->said;
        if (clock_now() > end) return "the server answers nothing";
        poll(NULL, 0, TURN);
        link->quiet = false;
    }
}

/* Returns the node that has the stream, `HOST:PORT`, if another node was asked. */
static const char *moved_to(const struct link *link) {
    for (size_t i = 0; i < link->came; i++) {
        if (is_error_of(link->answers[i], "MOVED ")) return strrchr(link->answers[i]->str, ' ') + 1;
    }
    return NULL;
}

/* Asks a server, and the node named by the server, as a bridge does. */
static const char *ask_node(struct master *master, struct link *link, const struct ds_fleet_options *options) {
    const char *why = ask_server(master, link, options), *place;
    for (int moves = 0; !why && moves < MOVES && (place = moved_to(link)); moves++) {
        master_moved(master, place);
        why = ask_server(master, link, options);
    }
    return why;
}

static bool judge_rights(const struct link *link) {
    bool is_good = true;
    for (size_t i = 0; i < link->came; i++) {
        if (is_error(link->answers[i])) is_good = report(false, fault, "rights", link->answers[i]->str);
    }
    return is_good && report(true, fault, "rights", "");
}

static bool judge_server(const struct link *link, const char *stream) {
    const redisReply *info = link->answers[0];
    const char *version = is_text(info) ? strstr(info->str, version_name) : NULL;
    bool is_new = version && atoi(version + strlen(version_name)) >= LEAST_VERSION;
    bool is_good = report(is_new, fault, "version", "redis 7 or newer is needed");
    is_good &= report(info_says(info, "role:master"), fault, "role", "it is a replica");
    is_good &= report(!info_splits(info, stream), fault, "cluster", "give the stream a name in braces, as {ds}");
    is_good &= judge_rights(link);
    report(info_says(info, "aof_enabled:1"), warning, "append-only file", "without one a crash loses everything, once no store lives");
    report(!info_may_evict(info), warning, "eviction", "the server may delete the stream: set maxmemory-policy to noeviction");
    return is_good;
}

/* Asks each address until one answers. Returns whether that server will do. */
static bool check_master(struct master *master, const struct ds_fleet_options *options) {
    struct link link = {0};
    const char *why = ask_node(master, &link, options);
    for (size_t tries = 1; why && tries < master->count; tries++) {
        report(false, warning, "server", why);
        master_failed(master);
        why = ask_node(master, &link, options);
    }
    bool is_good = report(!why, fault, "server", why) && judge_server(&link, stream_of(options));
    link_close(&link);
    return is_good;
}

bool check_server(const struct ds_fleet_options *options) {
    struct master master = {.wakeup = -1};
    enum ds_fleet_word word = master_open(&master, options);
    bool is_good = word == DS_FLEET_INSTEP;
    if (is_good) is_good = check_master(&master, options);
    else report(false, fault, "address", word == DS_FLEET_BADTLS ? master.said : options_explained(word));
    master_close(&master);
    return is_good;
}
