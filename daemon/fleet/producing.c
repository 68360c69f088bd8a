/* Producing: what took effect in the store becomes entries of the stream.
 *
 *   state       | event                           | becomes, and does
 *   ------------+---------------------------------+--------------------------------------------------------------------
 *   NEWS        | asked                           | NEWS: asks to add `sent` bytes of the outbox, in parts
 *   NEWS        | a part wasn't added             | NEWS, or ADDED: denied; those before it are acknowledged, or wait for replicas
 *   NEWS        | each was added, replicas enough | NEWS: these bytes are acknowledged
 *   NEWS        | .. too few replicas             | ADDED: denied, but not before they had their time
 *   NEWS        | .. an error instead of replicas | ADDED: denied
 *   ADDED       | asked                           | ADDED: asks for the replicas alone
 *   ADDED       | replicas enough                 | NEWS: these bytes are acknowledged
 *   ADDED       | too few replicas                | ADDED: denied, but not before they had their time
 *   ADDED       | an error instead of replicas    | ADDED: denied
 *   NEWS, ADDED | the connection ends             | NEWS: sends to the next server again
 *
 * If the outbox is long, and no round sends it, all that is held takes its place, and the state is NEWS: limit_outbox of ds_fleet.c. If the
 * server lost what it had, the state is NEWS, too: server_call_again. A compaction adds the whole outbox, which is acknowledged
 * then; with replicas the state is ADDED: producing_added_all. A round for marks alone writes nothing but a counter, in the
 * key of the digests, so that it has a write whose replicas it can wait for. */
#include "bridge.h"
#include "clock.h"
#include <stdio.h>
#include <string.h>

enum {
    PARTS = 32,     /* entries added at a time, */
    PART = 1 << 16, /* and bytes of lines in one of them, unless one line has more */
    WAITS = 1000    /* milliseconds of one wait for replicas: then other rounds have their turn */
};

/* Returns how many bytes of the lines go into one entry. */
static size_t part_of(const char *lines, size_t length) {
    unsigned count = ITEMS_MOST;
    size_t part = first_lines(lines, length, count);
    while (part > PART && count > 1) {
        count /= 2;
        part = first_lines(lines, part, count);
    }
    return part;
}

/* Takes the next part of the outbox into the round. Returns its length, and where it begins; 0: there is none. */
static size_t take_part(struct ds_fleet *fleet, const char **lines) {
    struct producing *producing = &fleet->producing;
    const struct text *outbox = &fleet->items.outbox;
    if (producing->parts == PARTS || producing->sent == outbox->length) return 0;
    *lines = outbox->bytes + producing->sent;
    size_t length = part_of(*lines, outbox->length - producing->sent);
    producing->sent += length;
    producing->parts++;
    return length;
}

static void take_marks(struct producing *producing) {
    producing->sent_marks += producing->marks;
    producing->marks = 0;
}

/* Asks to add the outbox's parts, each as an entry, and for the length of the stream. The last entry of a whole outbox may have a
 * watermark. A round without parts counts a number up, so that replicas have a write to confirm. */
static void ask_to_add(struct ds_fleet *fleet) {
    const char *lines;
    fleet->producing.sent = 0;
    for (size_t length; (length = take_part(fleet, &lines)) > 0;) {
        unsigned long long mark = fleet->producing.sent == fleet->items.outbox.length ? anti_entropy_watermark(fleet) : 0;
        link_ask(&fleet->server.producer, mark ? "XADD %s:items * from %s items %b mark %llu" : "XADD %s:items * from %s items %b", fleet->stream,
                 fleet->me, lines, length, mark);
    }
    link_ask(&fleet->server.producer, "XLEN %s:items", fleet->stream);
    if (!fleet->producing.parts) link_ask(&fleet->server.producer, "HINCRBY %s:digests waits 1", fleet->stream);
    take_marks(&fleet->producing);
}

/* ---- for a compaction ---- */

bool producing_may_add_all(const struct ds_fleet *fleet) {
    const struct text *outbox = &fleet->items.outbox;
    size_t parts = 0, sent = 0;
    if (fleet->producing.state != PRODUCING_NEWS || fleet->producing.owes_all) return false;
    for (; parts < PARTS && sent < outbox->length; parts++) sent += part_of(outbox->bytes + sent, outbox->length - sent);
    return sent == outbox->length;
}

void producing_put_all(struct ds_fleet *fleet, struct question *question) {
    const char *lines;
    fleet->producing.sent = 0;
    fleet->producing.parts = 0;
    for (size_t length; (length = take_part(fleet, &lines)) > 0;) question_put(question, lines, length);
    take_marks(&fleet->producing);
}

static void count_as_acknowledged(struct ds_fleet *fleet) {
    struct producing *producing = &fleet->producing;
    producing->acknowledged += items_drop_acknowledged(&fleet->items, producing->sent, producing->sent_marks);
    producing->sent_marks = 0;
    producing_cut(producing);
}

/* Entries were asked for, or added: from now on the replicas have their time. */
static void begin_wait(struct producing *producing) { producing->wait_end = clock_now() + (uint64_t)producing->within; }

/* The next round waits for the replicas. */
void producing_added_all(struct ds_fleet *fleet, const struct redisReply *ids) {
    struct producing *producing = &fleet->producing;
    for (size_t i = 0; i < ids->elements; i++) trail_add(&producing->trail, id_of(ids->element[i]));
    fleet->state.entries_told += ids->elements;
    begin_wait(producing);
    if (producing->replicas && (producing->sent || producing->sent_marks)) producing->state = PRODUCING_ADDED;
    else count_as_acknowledged(fleet);
}

/* ---- a round of producing ---- */

static bool has_outbox(const struct ds_fleet *fleet) {
    return fleet->items.outbox.length || fleet->producing.marks || fleet->producing.sent_marks;
}

bool producing_has_news(const struct ds_fleet *fleet) { return fleet->producing.owes_all || has_outbox(fleet); }

/* If everything held has yet to be gathered, news waits for that. */
static bool is_producing_due(const struct ds_fleet *fleet) {
    return fleet->server.is_one && has_outbox(fleet) && !(fleet->producing.owes_all && bridge_is_at_end(fleet));
}

/* What isn't sent yet will be a later write by itself. */
void producing_mark(struct ds_fleet *fleet) {
    struct producing *producing = &fleet->producing;
    bool is_written_later = fleet->items.outbox.length > producing->sent || producing->marks;
    if (!producing->replicas || is_written_later) return;
    producing->marks = 1;
    fleet->items.gathered++;
}

/* Returns the milliseconds of the next WAIT, at most WAITS: until `wait_end`, or, past that, as long as `within`. */
static int next_wait(const struct producing *producing) {
    uint64_t time = clock_now(), left = producing->wait_end > time ? producing->wait_end - time : (uint64_t)producing->within;
    return left < WAITS ? (int)left : WAITS;
}

static enum ds_fleet_word ask_round(struct ds_fleet *fleet) {
    struct producing *producing = &fleet->producing;
    producing->parts = 0;
    if (producing->state == PRODUCING_NEWS) {
        ask_to_add(fleet);
        begin_wait(producing);
    }
    if (!producing->replicas) return DS_FLEET_INSTEP;
    int wait = next_wait(producing);
    link_ask(&fleet->server.producer, "WAIT %d %d", producing->replicas, wait);
    fleet->server.producer.blocks = (unsigned)wait;
    return DS_FLEET_INSTEP;
}

/* The parts before the first that wasn't added are there, and wait for their replicas if there are any; the others are sent
 * again. */
static enum ds_fleet_word keep_added(struct ds_fleet *fleet, unsigned added) {
    struct producing *producing = &fleet->producing;
    const struct text *outbox = &fleet->items.outbox;
    const redisReply *answer = fleet->server.producer.answers[added];
    anti_entropy_unmark(fleet);
    producing->sent = 0;
    for (unsigned i = 0; i < added; i++) producing->sent += part_of(outbox->bytes + producing->sent, outbox->length - producing->sent);
    if (added && producing->replicas) producing->state = PRODUCING_ADDED;
    else if (added) count_as_acknowledged(fleet);
    return is_error(answer) ? server_denied(fleet, answer) : server_protocol_error(fleet, "no entry was added");
}

static enum ds_fleet_word note_added(struct ds_fleet *fleet) {
    struct producing *producing = &fleet->producing;
    struct redisReply **answers = fleet->server.producer.answers;
    unsigned added = 0;
    for (; added < producing->parts && is_text(answers[added]); added++) trail_add(&producing->trail, id_of(answers[added]));
    fleet->state.entries_told += added;
    if (added < producing->parts) return keep_added(fleet, added);
    const redisReply *counter = added ? NULL : answers[1];
    if (counter && is_error(counter)) return server_denied(fleet, counter);
    fleet->compacting.length = (long)count_of(answers[added]);
    return DS_FLEET_INSTEP;
}

static enum ds_fleet_word lacks_replicas(struct ds_fleet *fleet, const redisReply *have) {
    char why[DS_FLEET_SAID];
    fleet->producing.state = PRODUCING_ADDED;
    if (is_error(have)) return server_denied(fleet, have);
    if (clock_now() < fleet->producing.wait_end) return DS_FLEET_INSTEP;
    snprintf(why, sizeof why, "%lld of %d replicas have the last change", count_of(have), fleet->producing.replicas);
    return server_protocol_error(fleet, why);
}

static enum ds_fleet_word producing_answered(struct ds_fleet *fleet) {
    struct producing *producing = &fleet->producing;
    const struct link *producer = &fleet->server.producer;
    enum ds_fleet_word word = producing->state == PRODUCING_NEWS ? note_added(fleet) : DS_FLEET_INSTEP;
    if (word != DS_FLEET_INSTEP) return word;
    const redisReply *have = producer->answers[producer->came - 1];
    if (producing->replicas && count_of(have) < producing->replicas) return lacks_replicas(fleet, have);
    count_as_acknowledged(fleet);
    fleet->server.pause = 0;
    return DS_FLEET_INSTEP;
}

const struct round producing_round = {is_producing_due, ask_round, producing_answered};

void producing_cut(struct producing *producing) {
    producing->state = PRODUCING_NEWS;
    producing->sent = 0;
}
