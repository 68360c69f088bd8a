/* Anti-entropy: each second, whether the server has what it had, and whether others hold the same at the same entry.
 *
 * `stock` is what the stream had at the look before, the first one of which is that of the meeting.
 *
 *   state | event                                    | does
 *   ------+------------------------------------------+-----------------------------------------------------------------
 *   any   | good answers                             | keeps what the stream has
 *   any   | .. of a server that lost something       | reads everything again, and sends what is missing
 *   any   | .. with another scope                    | badscope, and the connections end
 *   any   | an entry of a second ago hasn't come     | away, both connections are made anew
 *   any   | others differ, and this is the first of its kind | sends everything again, less and less often
 *   any   | an error                                 | denied
 *
 * A look by itself, without digests, comes between for marks of changes that the store held already. */
#include "bridge.h"
#include "clock.h"
#include <stdio.h>
#include <string.h>
#include <sys/random.h>

enum { LONGEST_REST = 32 /* rounds between two times that all is sent to others that still differ */ };

static const uint64_t not_digested = UINT64_MAX;

/* The questions of a look, in their order, and of a round; up to two more come after them. One transaction looks at
 * the stream before anything is written, so that a replica is looked at, too. */
enum {
    ASKED_REPLICATION, ASKED_MULTI, ASKED_LOOK,
    ASKED_ENTRIES = ASKED_LOOK + LOOK_QUESTIONS, ASKED_EXEC, ASKED_DIGESTS, ASKED_CLAIM
};
enum { LOOKED_ENTRIES = LOOK_QUESTIONS, LOOKED_AT };

/* ---- digests ---- */

static enum ds_fleet_word take_digest(struct ds_fleet *fleet, struct digest *digest) {
    char front[DS_FLEET_ID];
    write_entry_id(front, digest->at);
    if (digest->mark) snprintf(front, sizeof front, "%llu", digest->mark);
    return items_digest(&fleet->items, front, &digest->value);
}

/* Takes a digest of the held items at the last entry read. Takes none while the outbox has changes that no entry up to there has:
 * other bridges hold something else at that entry. */
static enum ds_fleet_word keep_digest(struct ds_fleet *fleet, unsigned long long mark) {
    struct anti_entropy *anti_entropy = &fleet->anti_entropy;
    const struct reading *reading = &fleet->reading;
    struct digest digest = {.at = reading->last, .mark = mark};
    if (!mark && is_above(reading->read_up_to, digest.at)) digest.at = reading->read_up_to;
    enum ds_fleet_word word = items_gather(&fleet->items);
    if (word != DS_FLEET_INSTEP) return word;
    if (fleet->items.outbox.length || is_above(fleet->producing.trail.last, digest.at)) return DS_FLEET_INSTEP;
    if (anti_entropy->digested == fleet->items.position && peers_own(&anti_entropy->peers, &digest)) return DS_FLEET_INSTEP;
    word = take_digest(fleet, &digest);
    if (word != DS_FLEET_INSTEP) return word;
    anti_entropy->digested = fleet->items.position;
    peers_keep(&anti_entropy->peers, digest);
    return DS_FLEET_INSTEP;
}

/* Keeps the digest of one's own mark, once its entry was read and all of its question was answered. */
static void keep_marked(struct anti_entropy *anti_entropy) {
    struct digest *marked = &anti_entropy->marked;
    if (marked->mark && !is_same_entry(marked->at, NO_ENTRY)) peers_keep(&anti_entropy->peers, *marked);
    marked->mark = 0;
}

unsigned long long anti_entropy_watermark(struct ds_fleet *fleet) {
    struct anti_entropy *anti_entropy = &fleet->anti_entropy;
    struct digest *marked = &anti_entropy->marked;
    uint64_t time = clock_now();
    unsigned long long mark;
    if (time < anti_entropy->marked_at + PERIOD || getrandom(&mark, sizeof mark, GRND_NONBLOCK) != sizeof mark) return 0;
    keep_marked(anti_entropy);
    *marked = (struct digest){.mark = mark};
    anti_entropy->marked_at = time;
    anti_entropy->merges = fleet->items.merges;
    if (take_digest(fleet, marked) != DS_FLEET_INSTEP) marked->mark = 0;
    return marked->mark;
}

/* Another one's entry before one's own mark is in a merge since then, and not in its digest, which doesn't count. A bridge
 * that reads old entries needn't take one at each mark. */
void anti_entropy_read(struct ds_fleet *fleet, unsigned long long mark, bool is_own) {
    struct anti_entropy *anti_entropy = &fleet->anti_entropy;
    bool is_marked = is_own && mark == anti_entropy->marked.mark && anti_entropy->merges == fleet->items.merges;
    if (is_marked) anti_entropy->marked.at = fleet->reading.last;
    if (is_own || !fleet->state.caught_up || clock_now() < anti_entropy->marked_at + PERIOD / 2) return;
    anti_entropy->marked_at = clock_now();
    keep_digest(fleet, mark);
}

void anti_entropy_unmark(struct ds_fleet *fleet) { fleet->anti_entropy.marked.mark = 0; }

/* ---- asking ---- */

/* How many entries each of some ids has: one, or none. */
static const char presence[] =
    "local there = {} for i, id in ipairs(ARGV) do there[i] = #redis.call('XRANGE', KEYS[1], id, id) end return there";

void anti_entropy_probes(const struct ds_fleet *fleet, struct entry_id ids[PROBES]) {
    const struct trail *added = &fleet->producing.trail, *read = &fleet->reading.trail;
    const struct entry_id probes[PROBES] = {added->sure, added->first, read->sure, read->first};
    memcpy(ids, probes, sizeof probes);
}

static void ask_for_probes(struct ds_fleet *fleet) {
    char text[PROBES][DS_FLEET_ID];
    struct entry_id *ids = fleet->anti_entropy.probes;
    anti_entropy_probes(fleet, ids);
    for (int i = 0; i < PROBES; i++) write_entry_id(text[i], ids[i]);
    link_ask(&fleet->server.producer, "EVAL %s 1 %s:items %s %s %s %s", presence, fleet->stream, text[0], text[1], text[2],
             text[3]);
    trail_ask(&fleet->producing.trail);
    trail_ask(&fleet->reading.trail);
}

static void ask_for_look(struct ds_fleet *fleet) {
    struct link *producer = &fleet->server.producer;
    fleet->anti_entropy.asked = fleet->reading.last;
    fleet->looking.asked++;
    fleet->looking.gathered = fleet->items.gathered;
    link_ask(producer, "INFO replication");
    link_ask(producer, "MULTI");
    look_ask(producer, fleet->stream);
    ask_for_probes(fleet);
    link_ask(producer, "EXEC");
}

static bool is_anti_entropy_due(const struct ds_fleet *fleet) {
    return bridge_is_at_end(fleet) && clock_now() >= fleet->anti_entropy.due_at;
}

static enum ds_fleet_word ask_to_compare(struct ds_fleet *fleet) {
    struct anti_entropy *anti_entropy = &fleet->anti_entropy;
    struct link *producer = &fleet->server.producer;
    char digest[DIGEST_TEXT];
    /* Whether no entry came since the round before. */
    bool is_at_rest = is_same_entry(anti_entropy->compared, fleet->reading.last);
    anti_entropy->due_at = clock_now() + PERIOD;
    enum ds_fleet_word word = items_retry(&fleet->items);
    keep_marked(anti_entropy);
    if (word == DS_FLEET_INSTEP && is_at_rest) word = keep_digest(fleet, 0);
    if (word != DS_FLEET_INSTEP) return word;
    anti_entropy->compared = fleet->reading.last;
    ask_for_look(fleet);
    link_ask(producer, "HGETALL %s:digests", fleet->stream);
    link_ask(producer, "HSETNX %s:snapshot scope %s", fleet->stream, fleet->scope); /* somebody may have deleted it */
    const char *gone = peers_gone(&anti_entropy->peers);
    if (peers_write(&anti_entropy->peers, ++anti_entropy->beat, digest)) {
        link_ask(producer, "HSET %s:digests %s %s", fleet->stream, fleet->me, digest);
    }
    if (gone) link_ask(producer, "HDEL %s:digests %s", fleet->stream, gone);
    return DS_FLEET_INSTEP;
}

/* ---- what the stream has ---- */

/* Whether an entry that was added or read is neither in the stream nor in the snapshot. */
static bool lacks_probe(const struct anti_entropy *anti_entropy, const redisReply *there, const struct stock *stock) {
    for (size_t i = 0; i < PROBES; i++) {
        struct entry_id id = anti_entropy->probes[i];
        if (is_above(id, stock->snapshot) && is_list_of(there, PROBES) && !count_of(there->element[i])) return true;
    }
    return false;
}

/* A stream that lost something is read again, and the bridge sends what is missing: one of another history, one that
 * lacks a probe, one that ends before what was read, and one that has less than before. */
static enum ds_fleet_word look_for_loss(struct ds_fleet *fleet, const struct stock *stock, bool is_lost) {
    struct anti_entropy *anti_entropy = &fleet->anti_entropy;
    struct reading *reading = &fleet->reading;
    bool is_behind = !is_same_entry(reading->last, NO_ENTRY) && stock->newest.first > reading->last.first;
    fleet->state.behind = is_behind ? stock->newest.first - reading->last.first : 0;
    if (is_lost || is_above(anti_entropy->asked, stock->generated) || has_less(&anti_entropy->stock, stock)) {
        items_say(&fleet->items, "lost: the server no longer has what it had, which is told again");
        fleet->producing.owes_all = true;
        bridge_begin_anew(fleet, stock);
        return server_call_again(fleet);
    }
    anti_entropy->stock = *stock;
    trail_looked(&fleet->producing.trail);
    trail_looked(&reading->trail);
    if (!is_above(stock->newest, reading->last)) reading->read_up_to = stock->generated;
    return DS_FLEET_INSTEP;
}

/* Whether an entry that was in the stream a second ago hasn't arrived: the consumer's connection may be dead without an
 * error. */
static bool is_deaf(const struct ds_fleet *fleet) {
    if (fleet->reading.state != READING_END) return false;
    return is_above(fleet->anti_entropy.newest, fleet->reading.last) && clock_now() > fleet->server.consumer.active_at + PERIOD;
}

/* Looks at the answers to what was asked in one transaction. */
static enum ds_fleet_word look_at_stream(struct ds_fleet *fleet, struct redisReply **looked, const redisReply *replication) {
    struct stock stock = {.bytes = 0};
    enum ds_fleet_word word = bridge_look(fleet, looked, &stock);
    if (word != DS_FLEET_INSTEP) return word;
    if (is_error(looked[LOOKED_ENTRIES])) return server_denied(fleet, looked[LOOKED_ENTRIES]);
    bool is_lost = server_changed_history(&fleet->server, replication);
    is_lost |= lacks_probe(&fleet->anti_entropy, looked[LOOKED_ENTRIES], &stock);
    word = look_for_loss(fleet, &stock, is_lost);
    if (word != DS_FLEET_INSTEP) return word; /* the answers are gone with the connection */
    const redisReply *scope = looked[LOOK_SNAPSHOT]->element[LOOK_SCOPE];
    return server_has_other_scope(fleet, scope) ? server_refuse_scope(fleet, scope) : DS_FLEET_INSTEP;
}

/* Looks at the answers to a look. One that finds no loss while nothing is owed counts, unless an earlier one still waits
 * for what was gathered before it. */
static enum ds_fleet_word look_answered_well(struct ds_fleet *fleet) {
    struct looking *looking = &fleet->looking;
    struct redisReply **answers = fleet->server.producer.answers, *looked = answers[ASKED_EXEC];
    const redisReply *error = error_of(answers, ASKED_DIGESTS);
    if (error) return server_denied(fleet, error);
    if (!is_list_of(looked, LOOKED_AT)) return server_protocol_error(fleet, "no transaction");
    enum ds_fleet_word word = look_at_stream(fleet, looked->element, answers[ASKED_REPLICATION]);
    if (word != DS_FLEET_INSTEP || fleet->producing.owes_all) return word;
    if (looking->good && fleet->producing.acknowledged >= looking->good_at) looking->seen = looking->good;
    if (looking->good > looking->seen) return word;
    looking->good = looking->asked;
    looking->good_at = looking->gathered;
    return word;
}

uint64_t looking_mark(struct looking *looking) { return looking->wanted = looking->asked + 1; }

bool looking_has_seen(const struct looking *looking, uint64_t look, uint64_t acknowledged) {
    return looking->seen >= look || (looking->good >= look && acknowledged >= looking->good_at);
}

static bool is_look_due(const struct ds_fleet *fleet) {
    const struct looking *looking = &fleet->looking;
    if (looking->wanted <= looking->seen || looking->wanted <= looking->good) return false;
    bool waits = looking->good > looking->seen && fleet->producing.acknowledged < looking->good_at;
    return !waits && !fleet->producing.owes_all && bridge_is_at_end(fleet);
}

static enum ds_fleet_word ask_to_look(struct ds_fleet *fleet) {
    ask_for_look(fleet);
    return DS_FLEET_INSTEP;
}

const struct round looking_round = {is_look_due, ask_to_look, look_answered_well};

/* ---- what others hold ---- */

/* If others differ, the first of those that hold the same sends everything. If they still differ, as after a clash, it
 * does less and less often. */
static void judge_peers(struct ds_fleet *fleet, const redisReply *digests) {
    struct anti_entropy *anti_entropy = &fleet->anti_entropy;
    peers_compare(&anti_entropy->peers, fleet->me, digests);
    unsigned differing = anti_entropy->peers.differing;
    if (differing && !fleet->state.differing) items_say(&fleet->items, "differs: %u hold something else", differing);
    fleet->state.differing = differing;
    if (!differing) {
        anti_entropy->rest = anti_entropy->wait = 0;
    } else if (anti_entropy->rest) {
        anti_entropy->rest--;
    } else if (anti_entropy->peers.is_first) {
        fleet->producing.owes_all = true;
        anti_entropy->wait = anti_entropy->wait ? 2 * anti_entropy->wait : 1;
        if (anti_entropy->wait > LONGEST_REST) anti_entropy->wait = LONGEST_REST;
        anti_entropy->rest = anti_entropy->wait;
    }
}

static enum ds_fleet_word anti_entropy_answered(struct ds_fleet *fleet) {
    struct link *producer = &fleet->server.producer;
    struct redisReply **answers = producer->answers, *digests = answers[ASKED_DIGESTS];
    if (is_deaf(fleet)) return server_went(fleet, "what was there a second ago didn't come");
    enum ds_fleet_word word = look_answered_well(fleet);
    if (word != DS_FLEET_INSTEP) return word;
    fleet->anti_entropy.newest = fleet->anti_entropy.stock.newest;
    const redisReply *error = error_of(answers + ASKED_DIGESTS, producer->came - ASKED_DIGESTS);
    if (error) return server_denied(fleet, error);
    if (digests->type == REDIS_REPLY_ARRAY) judge_peers(fleet, digests);
    fleet->server.pause = 0;
    if (!items_may_regain(&fleet->items)) return DS_FLEET_INSTEP;
    bridge_read_from_start(fleet);
    return server_call_again(fleet);
}

const struct round anti_entropy_round = {is_anti_entropy_due, ask_to_compare, anti_entropy_answered};

void anti_entropy_begin_anew(struct anti_entropy *anti_entropy, const struct stock *stock) {
    anti_entropy->asked = anti_entropy->compared = NO_ENTRY;
    anti_entropy->newest = stock->newest;
    anti_entropy->stock = *stock;
    anti_entropy->digested = not_digested;
    peers_forget_own(&anti_entropy->peers);
}
