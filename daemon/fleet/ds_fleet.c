/* A store in step with others over a redis stream: the step, and the calls. See ds_fleet.h; bridge.h has the parts, and
 * docs/reference/fleet.md the protocol.
 *
 * Two connections: the producer asks one round of questions at a time; the consumer waits for entries. A step continues
 * both as far as it can without waiting, and only then waits. */
#include "bridge.h"
#include "clock.h"
#include <errno.h>
#include <stdio.h>
#include <stdlib.h>
#include <string.h>
#include <sys/epoll.h>
#include <sys/random.h>
#include <sys/timerfd.h>
#include <unistd.h>

enum {
    STREAM_NAME = 128, /* bytes of a name at most */
    RUN_BYTES = 16,    /* of the name of this run, which has two digits for each */
    EVENTS = 5,        /* of the poller: the timer, look-ups, two connections, and a Sentinel's */
    SOON = 100,        /* milliseconds to the next step if something is due that can't be done now */
    NANOSECONDS = 1000000 /* of one millisecond */
};

/* The marks that wait for a look have this bit, and its number. */
static const uint64_t of_look = 1ULL << 63;

/* ---- the producer and the consumer ---- */

bool bridge_is_at_end(const struct ds_fleet *fleet) { return fleet->reading.state == READING_END; }

void bridge_read_from_start(struct ds_fleet *fleet) {
    fleet->reading.last = fleet->reading.passed = fleet->reading.merged = NO_ENTRY;
    fleet->reading.state = READING_BEHIND;
    text_drop(&fleet->reading.said, fleet->reading.said.length);
    items_begin_anew(&fleet->items, fleet->producing.owes_all);
}

enum ds_fleet_word bridge_look(struct ds_fleet *fleet, struct redisReply **looked, struct stock *stock) {
    const redisReply *error = error_of(looked, LOOK_QUESTIONS);
    if (is_no_stream(error)) error = error_of(looked + 1, LOOK_QUESTIONS - 1);
    if (error) return server_denied(fleet, error);
    if (!is_list_of(looked[LOOK_SNAPSHOT], LOOK_FIELDS)) return server_protocol_error(fleet, "no snapshot");
    fleet->compacting.length = (long)count_of(field_of(looked[LOOK_STREAM], "length"));
    *stock = look_answered(looked);
    return DS_FLEET_INSTEP;
}

void bridge_begin_anew(struct ds_fleet *fleet, const struct stock *stock) {
    bridge_read_from_start(fleet);
    fleet->reading.read_up_to = fleet->compacting.written = NO_ENTRY;
    fleet->producing.trail = fleet->reading.trail = (struct trail){.sure = NO_ENTRY};
    anti_entropy_begin_anew(&fleet->anti_entropy, stock);
    fleet->looking.good = 0;
}

/* Ends the producer's round. Compacting may have asked the next one already, and a connection that went has none. */
static enum ds_fleet_word end_round(struct ds_fleet *fleet) {
    enum ds_fleet_word word = fleet->server.round->answered(fleet);
    if (fleet->compacting.state == COMPACTING_WRITES || !link_is_open(&fleet->server.producer)) return word;
    link_done(&fleet->server.producer);
    fleet->server.round = NULL;
    return word;
}

/* Puts everything held into the outbox, if that is owed and the stream is read to its end. */
static enum ds_fleet_word gather_owed(struct ds_fleet *fleet) {
    if (!fleet->producing.owes_all || !bridge_is_at_end(fleet)) return DS_FLEET_INSTEP;
    enum ds_fleet_word word = items_gather_owed(&fleet->items);
    if (word == DS_FLEET_INSTEP) fleet->producing.owes_all = false;
    return word;
}

/* Keeps the outbox from growing without end, if no round is sending it. What was added without enough replicas is sent again. */
static enum ds_fleet_word limit_outbox(struct ds_fleet *fleet) {
    bool is_asked = fleet->server.round == &producing_round || fleet->compacting.state == COMPACTING_WRITES;
    if (is_asked || !items_should_fold(&fleet->items)) return DS_FLEET_INSTEP;
    producing_cut(&fleet->producing);
    return items_fold(&fleet->items);
}

static enum ds_fleet_word gather(struct ds_fleet *fleet) {
    enum ds_fleet_word word = items_gather(&fleet->items);
    return word == DS_FLEET_INSTEP ? limit_outbox(fleet) : word;
}

/* Asks the first of the producer's rounds that is due. LATE: there is one. */
static enum ds_fleet_word ask_next(struct ds_fleet *fleet) {
    static const struct round *const rounds[] = {&meeting_round,    &fetching_round, &anti_entropy_round,
                                                 &compacting_round, &looking_round,  &producing_round};
    if (clock_now() < fleet->server.ask_at) return DS_FLEET_DENIED;
    enum ds_fleet_word word = limit_outbox(fleet);
    if (word == DS_FLEET_INSTEP) word = gather_owed(fleet);
    for (size_t i = 0; i < sizeof rounds / sizeof *rounds; i++) {
        if (!rounds[i]->is_due(fleet)) continue;
        word = rounds[i]->ask(fleet);
        if (word != DS_FLEET_INSTEP) return word;
        fleet->server.round = rounds[i];
        return DS_FLEET_LATE;
    }
    return word;
}

/* Continues the producer: LATE if more may come of it at once, else INSTEP or why not. */
static enum ds_fleet_word turn_producer(struct ds_fleet *fleet) {
    enum ds_fleet_word word = DS_FLEET_INSTEP;
    switch (link_turn(&fleet->server.producer, clock_now())) {
    case LINK_LOST: return server_went(fleet, fleet->server.producer.said);
    case LINK_IDLE: return ask_next(fleet);
    case LINK_WAITS: return DS_FLEET_INSTEP;
    case LINK_ANSWERED: word = end_round(fleet);
    }
    return word == DS_FLEET_INSTEP ? DS_FLEET_LATE : word;
}

static enum ds_fleet_word turn_consumer(struct ds_fleet *fleet) {
    enum ds_fleet_word word = DS_FLEET_INSTEP;
    bool may_read = fleet->server.state == SERVER_MET && (!fleet->server.is_one || fleet->reading.state != READING_GAP);
    switch (link_turn(&fleet->server.consumer, clock_now())) {
    case LINK_LOST: return server_went(fleet, fleet->server.consumer.said);
    case LINK_WAITS: return DS_FLEET_INSTEP;
    case LINK_IDLE:
        if (!may_read || clock_now() < fleet->server.ask_at) return DS_FLEET_INSTEP;
        if (fleet->server.is_one) reading_ask(fleet);
        else server_ask_consumer(&fleet->server);
        return DS_FLEET_LATE;
    case LINK_ANSWERED:
        word = fleet->server.is_one ? reading_answered(fleet) : server_hear_consumer(fleet);
        link_done(&fleet->server.consumer);
    }
    return word == DS_FLEET_INSTEP ? DS_FLEET_LATE : word;
}

static bool is_in_step(const struct ds_fleet *fleet) {
    return fleet->server.state == SERVER_MET && bridge_is_at_end(fleet) && !producing_has_news(fleet);
}

/* Goes as far as it can without waiting. If one of the two is denied, the other continues. A step that waits ends once
 * the server has all news: what the consumer hasn't read yet, such as the same news, is left to the next step, for
 * which the poller is readable, and which may send other news first. A caller that doesn't wait would come back for it at once,
 * at the cost of another turn. */
static enum ds_fleet_word turn_both(struct ds_fleet *fleet, bool waits) {
    enum ds_fleet_word produced = DS_FLEET_LATE, consumed = DS_FLEET_LATE;
    while (produced == DS_FLEET_LATE || consumed == DS_FLEET_LATE) {
        uint64_t before = fleet->producing.acknowledged;
        enum ds_fleet_word word = server_call(fleet);
        if (word != DS_FLEET_INSTEP) return word;
        produced = turn_producer(fleet);
        if (!server_is_connected(&fleet->server)) return produced;
        bool has_sent_all = fleet->producing.acknowledged > before && is_in_step(fleet);
        if (waits && has_sent_all && link_is_asked(&fleet->server.consumer)) return DS_FLEET_INSTEP;
        consumed = turn_consumer(fleet);
        if (!server_is_connected(&fleet->server)) return consumed;
    }
    if (produced != DS_FLEET_INSTEP) return produced;
    if (consumed != DS_FLEET_INSTEP) return consumed;
    return is_in_step(fleet) ? DS_FLEET_INSTEP : DS_FLEET_LATE;
}

/* ---- the poller ---- */

/* Lets the poller watch a connection, for writing if something couldn't be written yet. */
static void watch_link(struct ds_fleet *fleet, struct link *link) {
    uint32_t wanted = EPOLLIN | (link_waits_to_write(link) ? (uint32_t)EPOLLOUT : 0);
    struct epoll_event event = {.events = wanted, .data = {.ptr = link}};
    if (!link_is_open(link) || link->watched == wanted) return;
    epoll_ctl(fleet->poller, link->watched ? EPOLL_CTL_MOD : EPOLL_CTL_ADD, link->socket, &event);
    link->watched = wanted;
}

static void watch_links(struct ds_fleet *fleet) {
    struct server *server = &fleet->server;
    watch_link(fleet, &server->producer);
    watch_link(fleet, &server->consumer);
    watch_link(fleet, &server->master.sentinel);
}

/* Returns when the next step is due though no descriptor is ready, within a PERIOD. `word`: the last step's. */
static uint64_t next_step_at(const struct ds_fleet *fleet, enum ds_fleet_word word) {
    const struct server *server = &fleet->server;
    uint64_t at = fleet->anti_entropy.due_at, soonest = SOON, time = clock_now();
    if (!server_is_connected(server)) {
        at = server->call_at;
        soonest = 1;
    } else if (word == DS_FLEET_DENIED) {
        at = server->ask_at;
        soonest = 1;
    }
    if (at > time + PERIOD) at = time + PERIOD;
    return at > time ? at : time + soonest;
}

static void arm_timer(struct ds_fleet *fleet, uint64_t at) {
    struct itimerspec set = {.it_value = {.tv_sec = (time_t)(at / SECOND), .tv_nsec = (long)(at % SECOND) * NANOSECONDS}};
    if (at != fleet->armed) timerfd_settime(fleet->timer, TFD_TIMER_ABSTIME, &set, NULL);
    fleet->armed = at;
}

/* Something is known of where the master is: it may be called at once. */
static void hear_of_master(struct server *server) {
    if (!server_is_connected(server)) server->call_at = clock_now();
}

/* Waits for the poller, and notes which descriptor is ready. */
static void poll_once(struct ds_fleet *fleet, int patience) {
    struct server *server = &fleet->server;
    struct epoll_event events[EVENTS];
    uint64_t expired;
    int count = epoll_wait(fleet->poller, events, EVENTS, patience);
    for (int i = 0; i < count; i++) {
        void *source = events[i].data.ptr;
        if (source == &server->producer || source == &server->consumer) {
            ((struct link *)source)->quiet = false;
        } else if (source == &server->master.sentinel) {
            server->master.sentinel.quiet = false;
            hear_of_master(server);
        } else if (source == &server->master) {
            master_hear(&server->master);
            hear_of_master(server);
        } else if (read(fleet->timer, &expired, sizeof expired) > 0) {
            fleet->armed = 0;
        }
    }
}

/* ---- a step ---- */

/* Whether a step ends with this word before its time is over. */
static bool ends_step(enum ds_fleet_word word) {
    return word == DS_FLEET_INSTEP || word == DS_FLEET_CLOSED || word == DS_FLEET_BADSCOPE || word == DS_FLEET_BADNAME;
}

/* Whether there is news that can be sent at once. */
static bool has_unsent_news(const struct ds_fleet *fleet) {
    return fleet->items.outbox.length && fleet->server.state == SERVER_MET && !fleet->server.round;
}

/* The poller is read at least once, unless news is on its way: then one wait is for its answer, too, be it that of the
 * next step. */
enum ds_fleet_word ds_fleet_step(struct ds_fleet *fleet, unsigned patience) {
    uint64_t end = clock_now() + patience;
    enum ds_fleet_word gathered = gather(fleet);
    bool has_polled = !has_unsent_news(fleet);
    if (has_polled) poll_once(fleet, 0);
    for (;;) {
        if (gathered != DS_FLEET_INSTEP) gathered = gather(fleet);
        enum ds_fleet_word word = gathered == DS_FLEET_INSTEP ? turn_both(fleet, patience) : gathered;
        arm_timer(fleet, next_step_at(fleet, word));
        watch_links(fleet);
        fleet->state.word = word;
        if (word == DS_FLEET_INSTEP) fleet->state.caught_up = true;
        uint64_t time = clock_now(), left = time < end ? end - time : 0;
        if (ends_step(word) || (!left && (has_polled || fleet->server.round))) return word;
        poll_once(fleet, left < PERIOD ? (int)left : PERIOD);
        has_polled = true;
    }
}

/* ---- the other calls ---- */

int ds_fleet_bell(const struct ds_fleet *fleet) { return fleet->poller; }

uint64_t ds_fleet_mark(struct ds_fleet *fleet) {
    if (items_gather(&fleet->items) != DS_FLEET_INSTEP) return 0;
    producing_mark(fleet);
    return fleet->items.gathered + 1;
}

uint64_t ds_fleet_mark_held(struct ds_fleet *fleet) { return ds_fleet_mark(fleet) ? of_look | looking_mark(&fleet->looking) : 0; }

bool ds_fleet_is_told(const struct ds_fleet *fleet, uint64_t mark) {
    if (mark & of_look) return looking_has_seen(&fleet->looking, mark & ~of_look, fleet->producing.acknowledged);
    return mark && fleet->producing.acknowledged + 1 >= mark;
}

void ds_fleet_owed(struct ds_fleet *fleet, uint8_t owed[16]) {
    for (size_t i = 0; i < sizeof fleet->items.owed; i++) owed[i] |= fleet->items.owed[i];
    memset(fleet->items.owed, 0, sizeof fleet->items.owed);
}

void ds_fleet_state(const struct ds_fleet *fleet, struct ds_fleet_state *state) {
    *state = fleet->state;
    for (char *byte = state->said; *byte; byte++)
        if (*byte < ' ' || *byte > '~') *byte = '?'; /* a server's newline isn't the end of a line of `state` */
    state->position = fleet->items.position;
    state->untold = fleet->items.outbox.length;
    state->unread = fleet->items.unread;
    write_entry_id(state->last, fleet->reading.last);
    memcpy(state->server, fleet->server.run, sizeof state->server);
    memcpy(state->refused, fleet->items.refused, sizeof state->refused);
}

static bool good_name(const char *stream) {
    size_t length = strlen(stream);
    for (size_t i = 0; i < length; i++) {
        if (stream[i] <= ' ' || stream[i] > '~') return false;
    }
    return length >= 1 && length <= STREAM_NAME;
}

/* The scope, for the store, and as the stream's field has it: `PATTERN KINDS`, or a word of its own, which has no
 * space. */
static enum ds_fleet_word read_scope(struct ds_fleet *fleet, const char *pattern, unsigned kinds) {
    if (kinds && !pattern) return DS_FLEET_BADSCOPE;
    fleet->items.kinds = (uint8_t)kinds;
    bool is_kept = !kinds || text_put(&fleet->items.scope, pattern, strlen(pattern));
    int length = kinds ? asprintf(&fleet->scope, "%s %u", pattern, kinds) : asprintf(&fleet->scope, "everything");
    if (length < 0) fleet->scope = NULL;
    return is_kept && length >= 0 ? DS_FLEET_INSTEP : DS_FLEET_NOROOM;
}

static enum ds_fleet_word read_options(struct ds_fleet *fleet, const struct ds_fleet_options *options) {
    const char *stream = options->stream ? options->stream : "ds";
    fleet->items.tell = options->tell;
    fleet->items.context = options->context;
    enum ds_fleet_word word = server_open(fleet, options);
    if (word != DS_FLEET_INSTEP) return word;
    if (!good_name(stream)) return DS_FLEET_BADNAME;
    fleet->stream = strdup(stream);
    fleet->compacting.keep = options->keep > 0 ? options->keep : DS_FLEET_KEEP;
    fleet->producing.replicas = options->replicas;
    fleet->producing.within = options->within > 0 ? options->within : DS_FLEET_WITHIN;
    return fleet->stream ? read_scope(fleet, options->pattern, options->kinds) : DS_FLEET_NOROOM;
}

static bool add_to_poller(struct ds_fleet *fleet, int descriptor, void *source) {
    struct epoll_event event = {.events = EPOLLIN, .data = {.ptr = source}};
    return !epoll_ctl(fleet->poller, EPOLL_CTL_ADD, descriptor, &event);
}

/* Names this run, by which it knows its own entries. */
static bool name_run(struct ds_fleet *fleet) {
    unsigned char bytes[RUN_BYTES];
    if (getrandom(bytes, sizeof bytes, 0) != sizeof bytes) return false;
    if (getrandom(&fleet->items.seed, sizeof fleet->items.seed, 0) != sizeof fleet->items.seed) return false;
    for (int i = 0; i < RUN_BYTES; i++) snprintf(fleet->me + 2 * i, sizeof "ff", "%02x", bytes[i]);
    return true;
}

static enum ds_fleet_word make_poller(struct ds_fleet *fleet) {
    struct master *master = &fleet->server.master;
    fleet->poller = epoll_create1(EPOLL_CLOEXEC);
    fleet->timer = timerfd_create(CLOCK_MONOTONIC, TFD_NONBLOCK | TFD_CLOEXEC);
    if (fleet->poller < 0 || fleet->timer < 0 || !add_to_poller(fleet, fleet->timer, &fleet->timer)) return DS_FLEET_SYSTEM;
    if (!add_to_poller(fleet, master->wakeup, master)) return DS_FLEET_SYSTEM;
    arm_timer(fleet, next_step_at(fleet, DS_FLEET_LATE));
    watch_links(fleet);
    return DS_FLEET_INSTEP;
}

enum ds_fleet_word ds_fleet_open(struct ds_fleet **fleet, struct ds_handle *store, const struct ds_fleet_options *options) {
    struct ds_fleet *made = calloc(1, sizeof *made);
    *fleet = NULL;
    if (!made) return DS_FLEET_NOROOM;
    made->items.store = store;
    made->poller = made->timer = made->server.master.wakeup = -1;
    made->state.word = DS_FLEET_LATE;
    anti_entropy_begin_anew(&made->anti_entropy, &(struct stock){.bytes = 0});
    enum ds_fleet_word word = name_run(made) ? read_options(made, options) : DS_FLEET_SYSTEM;
    if (word == DS_FLEET_INSTEP) word = items_gather_all(&made->items);
    if (word == DS_FLEET_INSTEP) word = make_poller(made);
    if (word == DS_FLEET_INSTEP) {
        *fleet = made;
        return word;
    }
    int why = errno; /* which closing may change */
    ds_fleet_close(made);
    errno = why;
    return word;
}

void ds_fleet_close(struct ds_fleet *fleet) {
    if (!fleet) return;
    server_close(&fleet->server);
    if (fleet->poller >= 0) close(fleet->poller);
    if (fleet->timer >= 0) close(fleet->timer);
    items_close(&fleet->items);
    text_free(&fleet->reading.said);
    free(fleet->stream);
    free(fleet->scope);
    free(fleet);
}

const char *ds_fleet_word(enum ds_fleet_word word) {
    static const char *const words[] = {"instep", "late",  "away",    "denied",   "noroom", "closed",
                                        "badurl", "notls", "badname", "badscope", "system", "badtls"};
    return words[word];
}

const char *ds_fleet_refusal(uint32_t refusal) {
    return refusal == 0 ? "unread" : ds_refusal_text(refusal);
}
