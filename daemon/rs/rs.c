/* RS. See rs.h. */
#include "rs.h"
#include "clock.h"
#include "lines.h"
#include "outputs.h"
#include "settings.h"
#include "tasks.h"
#include <errno.h>
#include <limits.h>
#include <stdio.h>
#include <string.h>
#include <unistd.h>

enum {
    ACTIONS = 8, /* of one event; the library has six at most */
    FIRST_GENERATION = 1
};

/* ---- services ---- */

static bool is_label(const char *label, const char *bytes, size_t length) { return strlen(label) == length && !memcmp(label, bytes, length); }

bool rs_find(struct ds_handle *store, const char *label, struct ds_rs_service *found) {
    for (size_t i = 0; !ds_rs_service(store, i, found); i++)
        if (is_label(label, found->label, found->label_length)) return true;
    return false;
}

/* The number of a server that has none is one that was never given, if possible: the store has the subscriptions of older
 * ones. The last one's are the public's. */
static int number_server(struct rs *rs) {
    for (int tried = 0; tried < SERVERS - 1; tried++) {
        int number = rs->servers++ % (SERVERS - 1);
        bool is_free = true;
        for (const struct service *it = rs->kept; it < rs->kept + KEPT; it++) is_free &= !*it->label || it->server != number;
        if (is_free) return number;
    }
    return -1;
}

/* Whether the service's folder has a file `down`. */
static bool keeps_down(const struct rs *rs, const struct service *service) {
    char path[PATH_MAX];
    int length = snprintf(path, sizeof path, "%s/%s/down", rs->instances.services, service->label);
    return length >= (int)sizeof path || !access(path, F_OK);
}

static struct service *add_service(struct rs *rs, const struct ds_rs_service *settings) {
    struct service *it = rs->kept;
    while (*it->label) it++; /* a reload waits until nothing of the last one is left */
    *it = (struct service){.server = -1};
    memcpy(it->label, settings->label, settings->label_length);
    outputs_open(rs, it);
    it->wish = keeps_down(rs, it) ? WISH_NOTHING : WISH_START;
    return it;
}

/* A process learns its period, and whether it is a server, at its start; the other settings hold at once. */
static bool needs_another_instance(const struct ds_rs_service *old, const struct ds_rs_service *new) {
    return old->period != new->period || old->service_class != new->service_class || old->has_unit != new->has_unit || old->unit != new->unit;
}

static struct service *learn(struct rs *rs, const struct ds_rs_service *settings) {
    struct service *it = rs->kept;
    while (it < rs->kept + KEPT && !is_label(it->label, settings->label, settings->label_length)) it++;
    if (it == rs->kept + KEPT) it = add_service(rs, settings);
    else if (it->was_up) it->wish = WISH_START;
    else if (needs_another_instance(&it->settings, settings)) it->wish = WISH_REFRESH;
    it->leaves = it->is_left_out = it->was_up = false;
    it->settings = *settings;
    if (settings->service_class != DS_RS_SERVER) it->server = -1;
    else if (it->server < 0) it->server = number_server(rs);
    return it;
}

void rs_learn(struct rs *rs) {
    struct ds_rs_service settings;
    uint64_t shortest = UINT64_MAX;
    for (struct service *it = rs->kept; it < rs->kept + KEPT; it++) it->leaves = it->is_left_out = *it->label != '\0';
    for (rs->services = 0; rs->services < SERVICES && !ds_rs_service(&rs->store, rs->services, &settings); rs->services++) {
        rs->service[rs->services] = learn(rs, &settings);
        rs->service[rs->services]->number = rs->services;
        if (settings.period && settings.period < shortest) shortest = settings.period;
    }
    outputs_list_logs(rs);
    rs->ticks.leap = shortest > 3 ? shortest / 2 : 1; /* RS misses nobody before two periods */
}

/* ---- opening and closing ---- */

/* A fault is reported once. */
bool rs_may_start(struct rs *rs) {
    uint64_t generation;
    if (ds_keeper_to_write(&rs->store, &generation)) return true;
    bool is_written = generations_write(&rs->generations, generation);
    if (!is_written && !rs->unwritten) events_tell(&rs->events, LOG_ERROR, "generations: %s: %s", rs->generations.path, strerror(errno));
    rs->unwritten = !is_written;
    return is_written && !ds_keeper_written(&rs->store, rs->generations.kept);
}

static bool open_keepers(struct rs *rs) {
    bool is_open = !ds_keeper_open(&rs->store);
    if (!is_open) events_tell(&rs->events, LOG_ERROR, "noroom: no memory for the keepers of processes");
    return is_open && rs_may_start(rs);
}

bool rs_open(struct rs *rs) {
    struct ds_handle judged = DS_CLOSED;
    bool fine = settings_read(rs->path, &rs->settings, &rs->events)
                && settings_open(&judged, rs->path, &rs->settings, FIRST_GENERATION, rs->slot, &rs->events);
    ds_close(&judged);
    if (!fine) return false;
    uint32_t next = generations_open(&rs->generations, rs->generations.path);
    if (!next) {
        const char *why = errno == EINVAL ? "it holds no generation" : strerror(errno);
        events_tell(&rs->events, LOG_ERROR, "generations: %s: %s", rs->generations.path, why);
    }
    if (!next || !settings_open(&rs->store, rs->path, &rs->settings, next, rs->slot, &rs->events) || !open_keepers(rs)) return false;
    if (!stream_open(&rs->stream, &rs->store, rs->instances.epoll, rs->events.log)) return false;
    ticks_open(&rs->ticks, rs->ticks.length);
    rs_learn(rs);
    return true;
}

void rs_close(struct rs *rs) {
    uint32_t next = 0;
    outputs_close(rs);
    if (ds_rs_next(&rs->store, &next)) next = 0;
    generations_close(&rs->generations, next);
    stream_close(&rs->stream, rs->instances.epoll);
    ds_close(&rs->store);
    text_free(&rs->settings);
    text_free(&rs->other);
}

/* ---- events, and their answers ---- */

struct ds_rs_event rs_of_label(enum ds_rs_event_kind kind, const char *label, size_t length) {
    struct ds_rs_event event = {.kind = kind};
    if (length > sizeof event.label) length = 0; /* such a label isn't one of the settings */
    event.label_length = (uint8_t)length;
    memcpy(event.label, label, length);
    return event;
}

struct ds_rs_event rs_of_instance(enum ds_rs_event_kind kind, uint32_t generation, uint16_t slot, enum cause cause) {
    return (struct ds_rs_event){.kind = kind, .generation = generation, .slot = slot, .cause = cause};
}

static struct service *service_of(struct rs *rs, const struct ds_rs_action *action) {
    for (size_t i = 0; i < rs->services; i++)
        if (is_label(rs->service[i]->label, action->label, action->label_length)) return rs->service[i];
    return NULL;
}

/* RS doesn't count the instance as up any more. The keepers decide when the processes end. */
static void end_instance(struct rs *rs, struct instance *it) {
    peers_forget(&rs->peers, it);
    instances_end(&rs->instances, it);
}

static void kill_instance(struct rs *rs, const struct ds_rs_action *action, enum cause cause) {
    struct instance *it = instances_at(&rs->instances, action->generation, action->slot);
    if (!it) return;
    it->service->cause = cause;
    events_tell(&rs->events, LOG_INFO, "kill: %s %s cause %d", it->service->label, it->endpoint, cause);
    end_instance(rs, it);
}

static void start_instance(struct rs *rs, const struct ds_rs_action *action) {
    struct service *service = service_of(rs, action);
    if (!service) return;
    outputs_look(rs, service);
    instances_add(&rs->instances, service, action->generation, action->slot);
}

static void ping_instance(struct rs *rs, const struct ds_rs_action *action) {
    struct instance *it = instances_at(&rs->instances, action->generation, action->slot);
    if (it) peers_tell(&rs->peers, it, "ping");
}

/* Nobody would find an instance whose label the store refused. The start fails. */
static void look_at_offer(struct rs *rs, const struct ds_rs_action *action) {
    if (action->word != DS_REFUSED) return;
    const char *why = ds_refusal_text(action->refusal);
    events_tell(&rs->events, LOG_ERROR, "refused: %.*s %u: %s", action->label_length, action->label, action->generation, why);
    struct instance *it = action->gone ? NULL : instances_at(&rs->instances, action->generation, action->slot);
    if (it) it->refused = why;
}

static void act(struct rs *rs, const struct ds_rs_action *action, enum cause cause) {
    switch ((enum ds_rs_action_kind)action->kind) {
    case DS_RS_KILL: kill_instance(rs, action, cause); break;
    case DS_RS_START: start_instance(rs, action); break;
    case DS_RS_PING: ping_instance(rs, action); break;
    case DS_RS_OFFER: look_at_offer(rs, action); break;
    case DS_RS_SWEEP: break;
    case DS_RS_GIVEUP: events_tell(&rs->events, LOG_ERROR, "givenup: %.*s", action->label_length, action->label); break;
    }
}

/* Returns why an instance ends that this event ends. */
static enum cause cause_of(const struct ds_rs_event *event) {
    switch (event->kind) {
    case DS_RS_DEATH: return (enum cause)event->cause;
    case DS_RS_TICK: return CAUSE_HEARTBEAT;
    case DS_RS_REFRESH: return CAUSE_UPDATE;
    default: return CAUSE_NONE;
    }
}

static bool is_refused_as(const struct ds_answer *answer, enum ds_refusal refusal) {
    return answer->word == DS_REFUSED && answer->refusal == (uint32_t)refusal;
}

/* Returns whether memory ran out, or the file of generations couldn't be written, and RS has to learn the event later. */
static bool ran_out(struct rs *rs, const struct ds_answer *answer) {
    bool is_short = is_refused_as(answer, DS_NOROOM) || is_refused_as(answer, DS_BEHIND);
    rs->repeats |= is_short;
    return is_short;
}

/* Owes the notices of RS's actions, and logs which servers get one. */
static void owe_notices(struct rs *rs, const uint8_t owed[16]) {
    for (size_t i = 0; i < rs->peers.count; i++) {
        struct peer *peer = rs->peers.peer[i];
        const struct instance *it = peer->instance; /* the label of a service that is gone may be freed */
        if (!peer->gone && wire_owe(&peer->wire, owed) && it) events_tell(&rs->events, LOG_INFO, "told: %s %s", it->service->label, it->endpoint);
    }
}

/* Carries out the actions of the last answer. All are fetched before the first is carried out, since the next request replaces them. */
static void act_on(struct rs *rs, const struct ds_answer *answer, enum cause cause) {
    struct ds_rs_action actions[ACTIONS];
    size_t count = 0;
    while (count < ACTIONS && !ds_rs_action(&rs->store, count, &actions[count])) count++;
    for (size_t i = 0; i < count; i++) act(rs, &actions[i], cause);
    owe_notices(rs, answer->owed);
}

/* What RS stops by `down` and `refresh` has a grace period. A start for which the file lacks the generation is reported again after the
 * write. */
static bool report(struct rs *rs, struct ds_rs_event *event, struct text *to, struct ds_answer *answer) {
    bool is_gentle = event->kind == DS_RS_DOWN || event->kind == DS_RS_REFRESH;
    uint64_t deadline = clock_now() + (is_gentle ? rs->instances.grace : 0);
    event->tick = rs->ticks.now;
    do
        if (ds_keeper_event(&rs->store, event, deadline, answer)) return true;
    while (is_refused_as(answer, DS_BEHIND) && rs_may_start(rs));
    bool put = !to || (answer->word == DS_NOREQUEST ? text_print(to, "norequest\n") : lines_fetch(&rs->store, to) == LINES_ANSWERED);
    act_on(rs, answer, cause_of(event));
    return put;
}

/* Reports an event that RS hasn't learnt. Returns false where memory ran out: the event is to be reported again. */
static bool try_report(struct rs *rs, struct ds_rs_event *event) {
    struct ds_answer answer = {0};
    report(rs, event, NULL, &answer);
    return !ran_out(rs, &answer);
}

bool rs_tell(struct rs *rs, enum ds_rs_event_kind kind, const char *label) {
    struct ds_rs_event event = rs_of_label(kind, label, strlen(label));
    return try_report(rs, &event);
}

bool rs_event(struct rs *rs, struct ds_rs_event *event, struct text *to) {
    struct ds_answer answer;
    return report(rs, event, to, &answer);
}

/* ---- deaths, time, and the end ---- */

bool rs_report(struct rs *rs, struct instance *it) {
    struct ds_answer answer = {0};
    it->service->cause = it->cause;
    uint32_t fault = ds_keeper_report(&rs->store, it->service->number, it->cause, rs->ticks.now, clock_now(), &answer);
    if (fault || ran_out(rs, &answer)) return false;
    act_on(rs, &answer, it->cause);
    if (it->is_up) end_instance(rs, it);
    return true;
}

bool rs_fail(struct rs *rs, struct instance *it) {
    struct ds_rs_event death = rs_of_instance(DS_RS_DEATH, it->generation, it->slot, CAUSE_EXIT);
    it->service->cause = CAUSE_EXIT;
    if (!try_report(rs, &death)) return false;
    if (it->is_up) end_instance(rs, it);
    return true;
}

/* An instance that hasn't begun can't send a heartbeat. The keepers vouch for such instances alone. */
static void vouch_for_pending(struct rs *rs) {
    for (size_t i = 0; i < rs->services; i++) {
        uint32_t word = ds_keeper_vouch(&rs->store, i, rs->ticks.now);
        (void)word;
    }
}

/* RS does one thing at each report. After a refusal, as without a free slot, a later tick tries again. */
void rs_tick(struct rs *rs) {
    struct ds_answer answer = {.word = DS_ACTED, .count = 1};
    if (rs_due(rs) <= rs->ticks.now) vouch_for_pending(rs);
    while (rs_due(rs) <= rs->ticks.now && answer.word == DS_ACTED && answer.count) {
        struct ds_rs_event tick = {.kind = DS_RS_TICK};
        report(rs, &tick, NULL, &answer);
    }
}

void rs_keep_step(struct rs *rs) {
    uint8_t owed[16] = {0};
    stream_turn(&rs->stream, owed, rs->events.log);
    peers_owe(&rs->peers, owed);
}

uint64_t rs_due(struct rs *rs) {
    uint64_t due;
    return ds_rs_due(&rs->store, &due) ? TICKS_NEVER : due;
}

bool rs_go_down(struct rs *rs) {
    size_t before = rs->left;
    for (; rs->left && rs_tell(rs, DS_RS_DOWN, rs->service[rs->left - 1]->label); rs->left--) tasks_turn(rs);
    return rs->left < before;
}
