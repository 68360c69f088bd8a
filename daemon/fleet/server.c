/* The server comes and goes: two connections to it, and the meeting by which a bridge gets to know it.
 *
 *   state       | event                              | becomes, and does
 *   ------------+------------------------------------+--------------------------------------------------------------
 *   AWAY        | the pause is over, master found    | CALLED: opens both connections
 *   AWAY        | no master is found                 | AWAY: a longer pause
 *   CALLED      | a meeting answered, as it should   | MET
 *   CALLED      | .. by another server or history    | MET: everything is read, and the missing is sent
 *   CALLED      | .. with another scope              | AWAY: badscope
 *   CALLED      | .. by a cluster, keys on many nodes| AWAY: badname
 *   CALLED      | .. by a replica, others are listed | AWAY: denied
 *   MET         | the consumer is at another server  | AWAY
 *   MET         | a loss, or all is read once more   | CALLED: both connections are made anew
 *   CALLED, MET | an error                           | unchanged: denied, asked again after PATIENCE
 *   CALLED, MET | an error of a demoted server       | AWAY: denied
 *   CALLED, MET | MOVED                              | AWAY: denied, and the node that it names is called
 *   CALLED, MET | a connection is lost, or is silent | AWAY */
#include "bridge.h"
#include "clock.h"
#include <stdio.h>
#include <string.h>
#include <sys/random.h>

enum {
    SOONEST = 50,  /* milliseconds before a server is called again, */
    LATEST = 1000, /* and then twice as long each time, up to this */
    PATIENCE = 100 /* before a denied request is tried again */
};

static const char unnamed[] = "unknown"; /* the run of a server that names none */

bool server_is_connected(const struct server *server) { return link_is_open(&server->producer) && link_is_open(&server->consumer); }

const char *server_run(const struct server *server) { return strcmp(server->run, unnamed) ? server->run : ""; }

/* ---- a server goes, or denies ---- */

static void keep_said(struct ds_fleet *fleet, const char *words) {
    if (words != fleet->state.said) snprintf(fleet->state.said, sizeof fleet->state.said, "%s", words);
}

/* Doubles the pause. Jitter keeps bridges that lost the same server from calling it at once. */
static void lengthen_pause(struct server *server) {
    uint64_t chance = 0;
    server->pause = server->pause ? 2 * server->pause : SOONEST;
    if (server->pause > LATEST) server->pause = LATEST;
    if (getrandom(&chance, sizeof chance, GRND_NONBLOCK) != sizeof chance) chance = 0;
    server->call_at = clock_now() + server->pause - chance % (server->pause / 2);
}

/* Questions without an answer are sent again to the next server. */
static void cut_rounds(struct ds_fleet *fleet) {
    fleet->server.round = NULL;
    producing_cut(&fleet->producing);
    anti_entropy_unmark(fleet);
    reading_cut(&fleet->reading);
    fleet->compacting.state = COMPACTING_RESTS;
}

/* The same reason is logged again only after a server was of use. */
enum ds_fleet_word server_hang_up(struct ds_fleet *fleet, enum ds_fleet_word word, const char *why) {
    struct server *server = &fleet->server;
    if (!server->pause || strcmp(fleet->state.said, why)) {
        items_say(&fleet->items, "%s: %s", ds_fleet_word(word), why);
        server->logs_meeting = true;
    }
    keep_said(fleet, why);
    link_close(&server->producer);
    link_close(&server->consumer);
    master_failed(&server->master);
    server->state = SERVER_AWAY;
    server->parted = word;
    cut_rounds(fleet);
    lengthen_pause(server);
    return word;
}

enum ds_fleet_word server_went(struct ds_fleet *fleet, const char *why) { return server_hang_up(fleet, DS_FLEET_AWAY, why); }

enum ds_fleet_word server_protocol_error(struct ds_fleet *fleet, const char *why) {
    if (strcmp(fleet->state.said, why)) items_say(&fleet->items, "denied: %s", why);
    keep_said(fleet, why);
    fleet->server.ask_at = clock_now() + PATIENCE;
    return DS_FLEET_DENIED;
}

/* Whether an error says that this server isn't the master now: it is a replica, isn't ready, or became a replica while
 * a reading waited. Another server may have the name by now. */
static bool is_demoted(const redisReply *error) {
    static const char *const words[] = {"READONLY ", "LOADING ", "MASTERDOWN ", "UNBLOCKED "};
    for (size_t i = 0; i < sizeof words / sizeof *words; i++) {
        if (is_error_of(error, words[i])) return true;
    }
    return false;
}

/* Leaves a node of a cluster for the node named in `MOVED SLOT HOST:PORT`. */
static enum ds_fleet_word follow_move(struct ds_fleet *fleet, const char *error) {
    char why[DS_FLEET_SAID], place[DS_FLEET_SAID];
    snprintf(why, sizeof why, "%.160s", error);
    snprintf(place, sizeof place, "%.160s", strrchr(error, ' ') + 1);
    server_hang_up(fleet, DS_FLEET_DENIED, why); /* which frees the error */
    master_moved(&fleet->server.master, place);
    return DS_FLEET_DENIED;
}

enum ds_fleet_word server_denied(struct ds_fleet *fleet, const redisReply *error) {
    char why[DS_FLEET_SAID];
    if (is_error_of(error, "MOVED ")) return follow_move(fleet, error->str);
    snprintf(why, sizeof why, "%.160s", error->str);
    return is_demoted(error) ? server_hang_up(fleet, DS_FLEET_DENIED, why) : server_protocol_error(fleet, why);
}

/* ---- a server is called ---- */

enum ds_fleet_word server_call(struct ds_fleet *fleet) {
    struct server *server = &fleet->server;
    uint64_t time = clock_now();
    if (server_is_connected(server)) return DS_FLEET_INSTEP;
    const struct link *lost = link_is_open(&server->producer) ? &server->consumer : &server->producer;
    if (server->state != SERVER_AWAY) return server_went(fleet, lost->said);
    if (time < server->call_at) return server->parted;
    switch (master_find(&server->master, time)) {
    case HOST_FOUND: break;
    case HOST_UNKNOWN: return server_went(fleet, server->master.said);
    case HOST_SOUGHT: server->call_at = time + HOST_PATIENCE; return server->parted; /* or when `wakeup` is readable */
    }
    if (!link_open(&server->producer, &server->master.call, time)) return server_went(fleet, server->producer.said);
    if (!link_open(&server->consumer, &server->master.call, time)) return server_went(fleet, server->consumer.said);
    server->state = SERVER_CALLED;
    return DS_FLEET_INSTEP;
}

enum ds_fleet_word server_call_again(struct ds_fleet *fleet) {
    struct server *server = &fleet->server;
    uint64_t time = clock_now();
    server->state = SERVER_CALLED;
    cut_rounds(fleet);
    bool is_open = link_open(&server->producer, &server->master.call, time) && link_open(&server->consumer, &server->master.call, time);
    const struct link *lost = link_is_open(&server->producer) ? &server->consumer : &server->producer;
    return is_open ? DS_FLEET_LATE : server_went(fleet, lost->said);
}

void server_ask_consumer(struct server *server) { link_ask(&server->consumer, "INFO"); }

enum ds_fleet_word server_hear_consumer(struct ds_fleet *fleet) {
    struct server *server = &fleet->server;
    const redisReply *info = server->consumer.answers[0];
    char run[DS_FLEET_ID], history[DS_FLEET_ID];
    if (is_error(info)) return server_denied(fleet, info);
    copy_hex_of(info, "run_id:", run);
    copy_hex_of(info, "master_replid:", history);
    bool is_named = *run && *server_run(server);
    server->is_one = (!is_named || !strcmp(run, server->run)) && !strcmp(history, server->history);
    return server->is_one ? DS_FLEET_INSTEP : server_went(fleet, "the two connections lead to two servers");
}

/* ---- meeting ---- */

/* The questions of a meeting, in their order. */
enum {
    MEETING_INFO, MEETING_CLAIM, MEETING_MULTI, MEETING_LOOK,
    MEETING_EXEC = MEETING_LOOK + LOOK_QUESTIONS, MEETING_QUESTIONS
};

static bool is_meeting_due(const struct ds_fleet *fleet) { return fleet->server.state != SERVER_MET; }

static enum ds_fleet_word ask_to_meet(struct ds_fleet *fleet) {
    struct link *producer = &fleet->server.producer;
    link_ask(producer, "INFO");
    link_ask(producer, "HSETNX %s:snapshot scope %s", fleet->stream, fleet->scope);
    link_ask(producer, "MULTI");
    look_ask(producer, fleet->stream);
    link_ask(producer, "EXEC");
    return DS_FLEET_INSTEP;
}

bool server_changed_history(struct server *server, const redisReply *replication) {
    char history[DS_FLEET_ID];
    copy_hex_of(replication, "master_replid:", history);
    bool is_another = strcmp(history, server->history) != 0;
    snprintf(server->history, sizeof server->history, "%s", history);
    return is_another;
}

/* Notes which server this is. A server that wasn't met before, or has another history, may lack the last entries: the
 * bridge reads everything again, and then sends the missing lines. Returns whether this is such a server. */
static bool note_server(struct ds_fleet *fleet, const redisReply *info) {
    struct server *server = &fleet->server;
    char run[DS_FLEET_ID];
    copy_hex_of(info, "run_id:", run);
    bool is_another = server_changed_history(server, info) || !*run || strcmp(run, server->run);
    if (!is_another) return false;
    server->logs_meeting = true;
    fleet->producing.owes_all |= *server->run != '\0'; /* the first one gets only the outbox */
    snprintf(server->run, sizeof server->run, "%s", *run ? run : unnamed);
    return true;
}

bool server_has_other_scope(const struct ds_fleet *fleet, const redisReply *scope) {
    return is_text(scope) && strcmp(scope->str, fleet->scope);
}

/* A snapshot from here would lack the lines outside this bridge's scope, so the bridge sends and compacts nothing. */
enum ds_fleet_word server_refuse_scope(struct ds_fleet *fleet, const redisReply *scope) {
    char why[DS_FLEET_SAID];
    snprintf(why, sizeof why, "the stream's scope is `%.100s`, and not `%.100s`", scope->str, fleet->scope);
    return server_hang_up(fleet, DS_FLEET_BADSCOPE, why);
}

static void log_meeting(struct ds_fleet *fleet, bool may_evict) {
    struct server *server = &fleet->server;
    if (server->logs_meeting) items_say(&fleet->items, "met: server %s", server->run);
    if (server->logs_meeting && may_evict) {
        items_say(&fleet->items, "evicts: the server may delete the stream when memory is short: %s",
                  "set its maxmemory-policy to noeviction");
    }
    server->logs_meeting = false;
}

/* A replica takes no scope. If the replica has the right one, and no other server is known, it is met all the same, and the
 * bridge follows the stream. */
static enum ds_fleet_word meeting_answered(struct ds_fleet *fleet) {
    struct server *server = &fleet->server;
    struct redisReply **answers = server->producer.answers, *info = answers[MEETING_INFO], *looked = answers[MEETING_EXEC];
    if (is_error(info)) return server_denied(fleet, info);
    bool may_evict = info_may_evict(info);
    if (info_splits(info, fleet->stream)) {
        return server_hang_up(fleet, DS_FLEET_BADNAME, "the server is of a cluster: give the stream a name in braces, as {ds}");
    }
    bool is_replica = info_says(info, "role:slave");
    if (is_replica && master_has_others(&server->master)) return server_hang_up(fleet, DS_FLEET_DENIED, "it is a replica");
    const redisReply *error = error_of(answers + MEETING_MULTI, MEETING_QUESTIONS - MEETING_MULTI);
    if (error) return server_denied(fleet, error);
    if (!is_list_of(looked, LOOK_QUESTIONS)) return server_protocol_error(fleet, "no transaction");
    struct stock stock = {.bytes = 0};
    enum ds_fleet_word word = bridge_look(fleet, looked->element, &stock);
    if (word != DS_FLEET_INSTEP) return word;
    const redisReply *scope = looked->element[LOOK_SNAPSHOT]->element[LOOK_SCOPE];
    if (note_server(fleet, info)) bridge_begin_anew(fleet, &stock);
    if (server_has_other_scope(fleet, scope)) return server_refuse_scope(fleet, scope);
    if (!is_text(scope) && is_error(answers[MEETING_CLAIM])) return server_denied(fleet, answers[MEETING_CLAIM]);
    server->state = SERVER_MET;
    server->is_one = false;
    server->parted = DS_FLEET_AWAY;
    master_worked(&server->master);
    fleet->state.connections++;
    log_meeting(fleet, may_evict);
    return DS_FLEET_INSTEP;
}

const struct round meeting_round = {is_meeting_due, ask_to_meet, meeting_answered};

/* ---- opening and closing ---- */

enum ds_fleet_word server_open(struct ds_fleet *fleet, const struct ds_fleet_options *options) {
    struct server *server = &fleet->server;
    server->parted = DS_FLEET_AWAY;
    server->logs_meeting = true;
    snprintf(server->name, sizeof server->name, "dsfleet-%.8s", fleet->me);
    server->master.call.name = server->name;
    enum ds_fleet_word word = master_open(&server->master, options);
    if (word == DS_FLEET_BADTLS) items_say(&fleet->items, "badtls: %s", server->master.said);
    return word;
}

void server_close(struct server *server) {
    link_close(&server->producer);
    link_close(&server->consumer);
    master_close(&server->master);
}
