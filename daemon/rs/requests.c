/* The rights of peers. See requests.h. */
#include "requests.h"
#include "lines.h"
#include "rs.h"
#include "status.h"
#include <string.h>
#include <unistd.h>

enum { PUBLIC_SERVER = SERVERS - 1 }; /* its subscriptions are leased to the public */

/* Returns the instance whose endpoint is the rest of a request, or NULL where none is up there. */
static const struct instance *read_instance(const struct rs *rs, const struct request *it) {
    uint32_t generation;
    uint16_t slot;
    return read_endpoint(it->rest, it->left, &generation, &slot) ? instances_at(&rs->instances, generation, slot) : NULL;
}

static bool refuse(struct peer *peer, const char *word) { return lines_put_refused(word, &peer->wire.out); }

static bool put_bad(struct peer *peer, uint64_t place) { return lines_put_bad(&peer->wire, place, &peer->wire.out); }

/* ---- the store ---- */

static bool answer_store(struct rs *rs, struct peer *peer, const struct request *it) {
    struct lines_said said;
    bool fits = lines_put(&rs->store, &peer->wire, it->line, it->length, &peer->wire.out, &said);
    peers_owe(&rs->peers, said.owed);
    return fits;
}

/* Whether the settings let an instance publish `new|over NAME KIND ..`. The store judges a line that can't be read. */
static bool may_publish(struct rs *rs, const struct instance *instance, struct request *rest) {
    static const struct { const char *word; enum ds_kinds kind; } kinds[] = {
        {"label", DS_LABEL}, {"u32", DS_U32}, {"str", DS_STR}, {"mem", DS_MEM},
    };
    const char *name, *kind;
    request_take(rest, &name); /* passes over `new` or `over` */
    size_t length = request_take(rest, &name), kind_length = request_take(rest, &kind);
    for (size_t i = 0; i < sizeof kinds / sizeof *kinds; i++) {
        if (strlen(kinds[i].word) != kind_length || memcmp(kinds[i].word, kind, kind_length)) continue;
        return !ds_rs_may_publish(&rs->store, instance->generation, instance->slot, (uint8_t)kinds[i].kind, name, length);
    }
    return true;
}

/* An instance publishes under its own endpoint, and only names that the settings allow. */
static bool answer_change(struct rs *rs, struct peer *peer, const struct request *it) {
    struct request rest = *it;
    const char *part;
    size_t length = request_take(&rest, &part);
    bool is_own = peer->instance && strlen(peer->instance->endpoint) == length && !memcmp(part, peer->instance->endpoint, length);
    if (!is_own) return refuse(peer, "notsender");
    if (request_is(it, "publish") && !may_publish(rs, peer->instance, &rest)) return refuse(peer, "notallowed");
    return answer_store(rs, peer, it);
}

/* ---- subscriptions ---- */

/* Returns whether a peer may use a subscription. A server among the services has eight of its own; each of the public's is leased to the
 * first peer that uses the number. */
static bool claim_sub(struct rs *rs, struct peer *peer, long sub) {
    if (peer->instance) return peer->instance->service->server == sub / SERVER_SUBS;
    if (sub / SERVER_SUBS != PUBLIC_SERVER) return false;
    for (size_t i = 0; i < rs->peers.count; i++) {
        const struct peer *other = rs->peers.peer[i];
        if (other != peer && !other->gone && subs_have(other->wire.owns, sub)) return false;
    }
    subs_add(peer->wire.owns, sub);
    return true;
}

static bool answer_subscription(struct rs *rs, struct peer *peer, const struct request *it) {
    struct request rest = *it;
    long sub = request_sub(&rest);
    if (sub >= 0 && !claim_sub(rs, peer, sub)) return refuse(peer, "notallowed");
    if (!request_is(it, "listen")) return answer_store(rs, peer, it);
    if (sub < 0 || rest.left) return put_bad(peer, strlen("listen "));
    subs_add(peer->wire.listens, sub);
    return text_print(&peer->wire.out, "listening %ld\n", sub);
}

/* ---- RS ---- */

static bool answer_beat(struct rs *rs, struct peer *peer) {
    struct ds_rs_event beat = rs_of_instance(DS_RS_BEAT, peer->instance->generation, peer->instance->slot, 0);
    return rs_event(rs, &beat, &peer->wire.out);
}

/* A call of the library that says whether an instance may deal with a service in some way. */
typedef uint32_t judge(struct ds_handle *, uint32_t generation, uint16_t slot, const char *label, size_t length);

/* Returns NULL if a peer may deal with another instance, or the word by which that is refused. */
static const char *why_barred(struct rs *rs, const struct peer *peer, const struct instance *other, judge *judge) {
    const struct instance *from = peer->instance;
    if (!from) return "notallowed";
    if (!other) return "oldendpoint";
    const char *label = other->service->label;
    return from == other || judge(&rs->store, from->generation, from->slot, label, strlen(label)) ? "notallowed" : NULL;
}

/* `complain ENDPOINT`: an instance reports that another one misbehaves. A late complaint names an old endpoint, so no newer instance is
 * hit. */
static bool answer_complaint(struct rs *rs, struct peer *peer, const struct request *it) {
    const struct instance *about = read_instance(rs, it);
    const char *why = why_barred(rs, peer, about, ds_rs_may_complain);
    if (why) return refuse(peer, why);
    events_tell(&rs->events, LOG_WARN, "complaint: %s %s by %s", about->service->label, about->endpoint, peer->instance->service->label);
    struct ds_rs_event death = rs_of_instance(DS_RS_DEATH, about->generation, about->slot, CAUSE_COMPLAINT);
    return rs_event(rs, &death, &peer->wire.out);
}

/* `connect ENDPOINT`: both ends know by dsrs' word who has the other one, and no right to a file is needed. */
static bool answer_connect(struct rs *rs, struct peer *peer, const struct request *it) {
    const struct instance *to = read_instance(rs, it);
    const char *why = why_barred(rs, peer, to, ds_rs_may_connect);
    if (!why) why = peers_connect(&rs->peers, peer, to);
    return why ? refuse(peer, why) : text_print(&peer->wire.out, "connected %s\n", to->endpoint);
}

/* `service up LABEL`, or down, refresh, restart, from the user that dsrs has: the tick is the clock's. */
static bool answer_service(struct rs *rs, struct peer *peer, const struct request *it) {
    static const struct { const char *verb; enum ds_rs_event_kind kind; } verbs[] = {
        {"up", DS_RS_UP}, {"down", DS_RS_DOWN}, {"refresh", DS_RS_REFRESH}, {"restart", DS_RS_RESTART},
    };
    struct request rest = *it;
    const char *verb;
    size_t length = request_take(&rest, &verb);
    if (peer->instance || !peers_may_order(peer->user)) return refuse(peer, "notallowed");
    if (rs->ending) return refuse(peer, "notup");
    for (size_t i = 0; i < sizeof verbs / sizeof *verbs; i++) {
        if (strlen(verbs[i].verb) != length || memcmp(verbs[i].verb, verb, length)) continue;
        if (verbs[i].kind != DS_RS_DOWN && !rs_may_start(rs)) return refuse(peer, "noroom");
        struct ds_rs_event event = rs_of_label(verbs[i].kind, rest.rest, rest.left);
        return rs_event(rs, &event, &peer->wire.out);
    }
    return put_bad(peer, strlen("service "));
}

bool requests_answer(struct rs *rs, struct peer *peer, const char *line, size_t length) {
    static const char *const reads[] = {"retrieve", "nameof", "since", "snapshot", "page", "show", "all", NULL};
    static const char *const subscriptions[] = {"subscribe", "check", "listen", NULL};
    static const char *const changes[] = {"publish", "delete", NULL};
    struct request it = request_of(line, length);
    if (request_is_any(&it, reads)) return answer_store(rs, peer, &it);
    if (request_is_any(&it, subscriptions)) return answer_subscription(rs, peer, &it);
    if (request_is_any(&it, changes)) return answer_change(rs, peer, &it);
    if (request_is(&it, "complain")) return answer_complaint(rs, peer, &it);
    if (request_is(&it, "connect")) return answer_connect(rs, peer, &it);
    if (request_is(&it, "service")) return answer_service(rs, peer, &it);
    if (request_is(&it, "beat") && !it.left && peer->instance) return answer_beat(rs, peer);
    if (request_is(&it, "status") && !it.left) return status_put(rs, &peer->wire.out);
    if (request_is(&it, "log") && !it.left) return events_put(&rs->events, &peer->wire.out);
    return text_print(&peer->wire.out, "norequest\n");
}
