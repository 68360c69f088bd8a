/* Reading: the entries of others are merged into the store; so is the snapshot, if it has what was trimmed unread.
 *
 *   state            | event                              | becomes, and does
 *   -----------------+------------------------------------+------------------------------------------------------------
 *   BEHIND, END      | a full reading                     | BEHIND: its entries are merged
 *   BEHIND, END      | a reading that isn't full          | END: its entries are merged
 *   BEHIND, END      | .. and a snapshot that goes further| GAP: merged, too; it goes past the last entry read before
 *   BEHIND, END      | an error, or out of memory         | BEHIND: denied, or noroom; the entries are asked for again
 *   GAP              | the snapshot is fetched            | BEHIND: it is merged
 *   GAP              | an error, or out of memory         | GAP: denied, or noroom
 *   BEHIND, END      | the connections end                | BEHIND
 *   GAP              | the connections end                | GAP: what was read past it hides it from the next reading
 *   BEHIND, END, GAP | everything is to be read once more | BEHIND: from the first entry on */
#include "bridge.h"
#include <limits.h>
#include <stdio.h>
#include <string.h>

enum {
    BLOCKS = 10000, /* milliseconds that a reading may wait at the server for entries */
    ENTRIES = 64    /* of one reading */
};

enum { READING_STREAMS, READING_AT, READING_QUESTIONS };
enum { FETCHING_STREAM, FETCHING_SNAPSHOT }; /* the questions of a fetching; the fields of the snapshot: */
enum { FETCHED_AT, FETCHED_ITEMS, FETCHED_FIELDS };
enum { STREAM_NAME, STREAM_ENTRIES, STREAM_PARTS };

/* The snapshot is fetched after the entries, so that no entry that the snapshot replaced meanwhile is missed. */
void reading_ask(struct ds_fleet *fleet) {
    struct link *consumer = &fleet->server.consumer;
    char last[DS_FLEET_ID];
    write_entry_id(last, fleet->reading.last);
    consumer->blocks = fleet->reading.state == READING_END ? BLOCKS : 0;
    if (consumer->blocks) {
        link_ask(consumer, "XREAD COUNT %d BLOCK %d STREAMS %s:items %s", ENTRIES, BLOCKS, fleet->stream, last);
    } else {
        link_ask(consumer, "XREAD COUNT %d STREAMS %s:items %s", ENTRIES, fleet->stream, last);
    }
    link_ask(consumer, "HGET %s:snapshot at", fleet->stream);
}

/* The mark that an answer is, or 0. */
static unsigned long long mark_of(const redisReply *answer) {
    unsigned long long mark = 0;
    return is_text(answer) && read_digits(answer->str, answer->len, ULLONG_MAX, &mark) == answer->len ? mark : 0;
}

static enum ds_fleet_word take_entry(struct ds_fleet *fleet, const redisReply *entry) {
    struct reading *reading = &fleet->reading;
    const redisReply *name = is_list_of(entry, ENTRY_PARTS) ? entry->element[ENTRY_ID] : NULL;
    struct entry_id id;
    if (!is_text(name) || !read_entry_id(name->str, &id)) return server_protocol_error(fleet, "no entry of a stream");
    const redisReply *fields = entry->element[ENTRY_FIELDS], *from = field_of(fields, "from"), *lines = field_of(fields, "items");
    enum ds_fleet_word word = DS_FLEET_INSTEP;
    bool is_own = is_text(from) && !strcmp(from->str, fleet->me);
    if (!is_text(lines)) {
        items_unread_entry(&fleet->items, name->str);
    } else if (is_own) {
        items_note(&fleet->items, lines->str, lines->len);
        if (fleet->server.round) fleet->server.producer.quiet = false; /* the server answers the producer right after this */
    } else {
        word = items_take(&fleet->items, name->str, lines->str, lines->len);
        fleet->state.entries_read++;
    }
    if (word != DS_FLEET_INSTEP || !is_above(id, reading->last)) return word;
    reading->last = id;
    text_drop(&reading->said, reading->said.length);
    trail_add(&reading->trail, id);
    unsigned long long mark = mark_of(field_of(fields, "mark"));
    if (mark) anti_entropy_read(fleet, mark, is_own);
    return word;
}

/* Keeps the fields of the entry read last, by which the server is to find the entry again. If memory runs out, nothing is kept. */
static void keep_said(struct reading *reading, const redisReply *entry) {
    const redisReply *fields = entry->element[ENTRY_FIELDS];
    bool is_kept = is_same_entry(id_of(entry->element[ENTRY_ID]), reading->last) && fields->type == REDIS_REPLY_ARRAY;
    text_drop(&reading->said, reading->said.length);
    for (size_t i = 0; is_kept && i < fields->elements; i++) {
        const redisReply *field = fields->element[i];
        is_kept = is_text(field) && (!i || text_put(&reading->said, "\n", 1)) && text_put(&reading->said, field->str, field->len);
    }
    if (!is_kept) text_drop(&reading->said, reading->said.length);
}

enum ds_fleet_word reading_answered(struct ds_fleet *fleet) {
    struct reading *reading = &fleet->reading;
    struct redisReply **answers = fleet->server.consumer.answers;
    const redisReply *streams = answers[READING_STREAMS], *at = answers[READING_AT];
    const redisReply *error = error_of(answers, READING_QUESTIONS);
    reading->state = READING_BEHIND;
    if (error) return server_denied(fleet, error);
    /* Judged by the last entry before this reading, which may begin past the trimmed entries. */
    bool has_gap = is_above(id_of(at), reading->last) && !is_same_entry(id_of(at), reading->passed);
    const redisReply *stream = streams->type == REDIS_REPLY_ARRAY && streams->elements ? streams->element[0] : NULL;
    const redisReply *entries = is_list_of(stream, STREAM_PARTS) ? stream->element[STREAM_ENTRIES] : NULL;
    size_t count = entries && entries->type == REDIS_REPLY_ARRAY ? entries->elements : 0;
    if (has_gap) reading->state = READING_GAP;
    for (size_t i = 0; i < count; i++) {
        enum ds_fleet_word word = take_entry(fleet, entries->element[i]);
        if (word != DS_FLEET_INSTEP) return word;
    }
    if (count) keep_said(reading, entries->element[count - 1]);
    if (!has_gap && count < ENTRIES) reading->state = READING_END;
    return DS_FLEET_INSTEP;
}

static bool is_fetching_due(const struct ds_fleet *fleet) { return fleet->reading.state == READING_GAP; }

static enum ds_fleet_word ask_for_snapshot(struct ds_fleet *fleet) {
    link_ask(&fleet->server.producer, "XINFO STREAM %s:items", fleet->stream);
    link_ask(&fleet->server.producer, "HMGET %s:snapshot at items", fleet->stream);
    return DS_FLEET_INSTEP;
}

/* Merges the snapshot, whatever entry the snapshot names. If there was such an entry, everything up to that entry is read
 * then. */
static enum ds_fleet_word snapshot_fetched(struct ds_fleet *fleet) {
    struct reading *reading = &fleet->reading;
    struct entry_id generated = id_of(field_of(fleet->server.producer.answers[FETCHING_STREAM], "last-generated-id"));
    const redisReply *snapshot = fleet->server.producer.answers[FETCHING_SNAPSHOT];
    if (is_error(snapshot)) return server_denied(fleet, snapshot);
    bool is_snapshot = is_list_of(snapshot, FETCHED_FIELDS);
    const redisReply *at = is_snapshot ? snapshot->element[FETCHED_AT] : NULL;
    const redisReply *lines = is_snapshot ? snapshot->element[FETCHED_ITEMS] : NULL;
    if (is_text(at) && is_text(lines)) {
        enum ds_fleet_word word = items_take(&fleet->items, "of the snapshot", lines->str, lines->len);
        if (word != DS_FLEET_INSTEP) return word;
    }
    reading->state = READING_BEHIND;
    if (!is_text(at)) return DS_FLEET_INSTEP;
    struct entry_id id = id_of(at);
    if (is_text(lines)) reading->merged = id;
    if (!is_text(lines) || is_above(id, generated)) {
        reading->passed = id;
    } else if (is_above(id, reading->last)) {
        reading->last = id;
        text_drop(&reading->said, reading->said.length);
    }
    return DS_FLEET_INSTEP;
}

const struct round fetching_round = {is_fetching_due, ask_for_snapshot, snapshot_fetched};

void reading_cut(struct reading *reading) {
    if (reading->state == READING_END) reading->state = READING_BEHIND;
}
