/* Compacting: a stream that has grown long becomes a snapshot of everything held.
 *
 *   state           | event                                  | becomes, and does
 *   ----------------+----------------------------------------+---------------------------------------------------------
 *   RESTS           | it is due                              | WATCHES: watches the snapshot, and asks for it
 *   WATCHES         | good answers                           | WRITES: one transaction, below
 *   WATCHES         | a snapshot that isn't known here       | WRITES: ends the watch alone
 *   WATCHES         | not all is read, or it can't be kept   | WRITES: ends the watch alone
 *   WATCHES         | another scope                          | RESTS: badscope
 *   WATCHES         | an error, or out of memory             | WRITES: ends the watch alone; denied, or noroom
 *   WRITES          | it is written                          | RESTS: the outbox is acknowledged
 *   WRITES          | the watch is ended                     | RESTS: nothing was written
 *   WRITES          | another bridge wrote meanwhile         | RESTS: nothing was written
 *   WRITES          | the stream isn't the one that was read | RESTS: nothing was written
 *   WRITES          | an error                               | RESTS: denied
 *   WATCHES, WRITES | the connection ends                    | RESTS
 *
 * A snapshot has everything held. So the transaction adds the outbox to the stream, too: bridges that have read past
 * the snapshot's entry never fetch it. It also trims what the server may have no second time, so it does nothing unless
 * the server and its stream are those of the last look, and the last entry read is still there. */
#include "bridge.h"
#include "clock.h"
#include <stdio.h>

/* The questions of a watching, and of the transaction; the fields of the snapshot that are asked for. */
enum { WATCHING_WATCH, WATCHING_SNAPSHOT };
enum { WRITING_MULTI, WRITING_SNAPSHOT, WRITING_EXEC, WRITING_QUESTIONS };
enum { WATCHED_AT, WATCHED_SCOPE, WATCHED_TRIMMED, WATCHED_FIELDS };
enum {
    REST = 250,     /* milliseconds between two compactings */
    COUNT_TEXT = 24 /* bytes of a number, with the terminating zero */
};

static bool is_compacting_due(const struct ds_fleet *fleet) {
    const struct compacting *compacting = &fleet->compacting;
    bool is_long = compacting->length > compacting->keep && !fleet->items.lost && clock_now() >= compacting->due_at;
    return is_long && bridge_is_at_end(fleet) && producing_may_add_all(fleet);
}

static enum ds_fleet_word ask_to_watch(struct ds_fleet *fleet) {
    struct link *producer = &fleet->server.producer;
    fleet->compacting.state = COMPACTING_WATCHES;
    fleet->compacting.due_at = clock_now() + REST;
    link_ask(producer, "WATCH %s:snapshot", fleet->stream);
    link_ask(producer, "HMGET %s:snapshot at scope trimmed", fleet->stream);
    return DS_FLEET_INSTEP;
}

/* ---- the transaction ---- */

/* Looks once more, as the last look did, and for the last entry read. Then adds the outbox, writes the snapshot, and
 * trims the stream. Returns the ids of the added entries, or a word for the first difference. */
static const char compaction[] =
    "local stream, snapshot, has, ids = KEYS[1], KEYS[2], {}, {} "
    "local run, history, added, gone, last, said, past, at_scope, held, anew, me, probes = unpack(ARGV, 1, 12) "
    "local info = redis.call('INFO', 'server') .. redis.call('INFO', 'replication') "
    "local function has_name(word, name) return name == '' or string.find(info, word .. name, 1, true) end "
    "if not has_name('run_id:', run) or not has_name('master_replid:', history) then return 'server' end "
    "local entry = redis.call('XRANGE', stream, last, last)[1] "
    "if not entry or table.concat(entry[2], '\\n') ~= said then return 'entry' end "
    "for i = 13, 12 + probes do if #redis.call('XRANGE', stream, ARGV[i], ARGV[i]) == 0 then return 'probe' end end "
    "local fields = redis.call('XINFO', 'STREAM', stream) "
    "for i = 1, #fields, 2 do has[fields[i]] = fields[i + 1] end "
    "local ever = has['entries-added'] "
    "if ever < tonumber(added) or ever - has['length'] > tonumber(gone) then return 'count' end "
    "for i = 13 + probes, #ARGV do ids[#ids + 1] = redis.call('XADD', stream, '*', 'from', me, 'items', ARGV[i]) end "
    "redis.call('HSET', snapshot, 'at', last, 'scope', at_scope, 'items', held) "
    "if anew == '1' then redis.call('HSET', snapshot, 'trimmed', 0) end "
    "redis.call('HINCRBY', snapshot, 'trimmed', redis.call('XTRIM', stream, 'MINID', past)) "
    "return ids";

/* The state of the snapshot's key when it is watched. */
struct watched {
    struct entry_id at;
    long long trimmed;
    bool counts_anew; /* the count isn't a number: the count begins anew, since no more could be added */
};

/* Puts how many of the entries for which the last look looked aren't in the snapshot, and then these. */
static void put_probes(const struct ds_fleet *fleet, struct entry_id at, struct question *question, char count[COUNT_TEXT],
                          char text[PROBES][DS_FLEET_ID]) {
    struct entry_id ids[PROBES];
    int found = 0;
    anti_entropy_probes(fleet, ids);
    for (int i = 0; i < PROBES; i++) {
        if (is_above(ids[i], at)) write_entry_id(text[found++], ids[i]);
    }
    snprintf(count, COUNT_TEXT, "%d", found);
    question_put_text(question, count);
    for (int i = 0; i < found; i++) question_put_text(question, text[i]);
}

static void ask_to_write(struct ds_fleet *fleet, const struct text *held, const struct watched *watched) {
    struct link *producer = &fleet->server.producer;
    const struct stock *stock = &fleet->anti_entropy.stock;
    struct entry_id last = fleet->reading.last;
    struct entry_id next = last.second + 1 ? (struct entry_id){last.first, last.second + 1} : (struct entry_id){last.first + 1, 0};
    char stream[DS_FLEET_SAID], snapshot[DS_FLEET_SAID], added[COUNT_TEXT], gone[COUNT_TEXT], at[DS_FLEET_ID], past[DS_FLEET_ID];
    char count[COUNT_TEXT], probes[PROBES][DS_FLEET_ID];
    struct question question = {.count = 0};
    snprintf(stream, sizeof stream, "%s:items", fleet->stream);
    snprintf(snapshot, sizeof snapshot, "%s:snapshot", fleet->stream);
    snprintf(added, sizeof added, "%lld", stock->added);
    snprintf(gone, sizeof gone, "%lld", stock->gone + watched->trimmed);
    write_entry_id(at, last);
    write_entry_id(past, next);
    const char *const front[] = {"EVAL", compaction, "2", stream, snapshot, server_run(&fleet->server), fleet->server.history, added, gone, at};
    for (size_t i = 0; i < sizeof front / sizeof *front; i++) question_put_text(&question, front[i]);
    question_put(&question, fleet->reading.said.bytes, fleet->reading.said.length);
    question_put_text(&question, past);
    question_put_text(&question, fleet->scope);
    question_put(&question, held->bytes, held->length);
    question_put_text(&question, watched->counts_anew ? "1" : "0");
    question_put_text(&question, fleet->me);
    put_probes(fleet, watched->at, &question, count, probes);
    producing_put_all(fleet, &question);
    fleet->compacting.at = last;
    link_ask(producer, "MULTI");
    link_ask_question(producer, &question);
    link_ask(producer, "EXEC");
}

/* ---- a watching ---- */

/* Whether everything in the snapshot is held here: this bridge merged that snapshot, or found it at the last look, or wrote it,
 * and it ends before the last entry read. */
static bool is_known(const struct ds_fleet *fleet, struct entry_id at) {
    const struct reading *reading = &fleet->reading;
    bool is_merged = is_same_entry(at, reading->merged) && !is_same_entry(at, NO_ENTRY);
    bool is_there = is_same_entry(at, fleet->anti_entropy.stock.snapshot) || is_same_entry(at, fleet->compacting.written);
    return is_merged || (is_there && is_above(reading->last, at));
}

/* Whether the store holds all that the stream has up to the last entry read, and may be written as the snapshot of that entry. Since the
 * compaction became due, the bridge may have read changes that no store here can hold. */
static bool may_write(const struct ds_fleet *fleet, struct entry_id at) {
    bool has_all = bridge_is_at_end(fleet) && fleet->reading.said.length && !fleet->items.lost;
    return has_all && producing_may_add_all(fleet) && is_known(fleet, at);
}

/* Puts the text of the snapshot into `held`, or nothing if none is to be written. */
static enum ds_fleet_word prepare_snapshot(struct ds_fleet *fleet, struct text *held, struct watched *watched) {
    struct redisReply **answers = fleet->server.producer.answers, *snapshot = answers[WATCHING_SNAPSHOT];
    const redisReply *error = error_of(answers, WATCHING_SNAPSHOT + 1);
    if (error) return server_denied(fleet, error);
    if (!is_list_of(snapshot, WATCHED_FIELDS)) return server_protocol_error(fleet, "no snapshot");
    const redisReply *scope = snapshot->element[WATCHED_SCOPE], *count = snapshot->element[WATCHED_TRIMMED];
    if (server_has_other_scope(fleet, scope)) return server_refuse_scope(fleet, scope);
    watched->counts_anew = !read_count(count, &watched->trimmed) && count->type != REDIS_REPLY_NIL;
    watched->at = id_of(snapshot->element[WATCHED_AT]);
    enum ds_fleet_word word = items_gather(&fleet->items);
    if (word != DS_FLEET_INSTEP) return word;
    return may_write(fleet, watched->at) ? items_all(&fleet->items, held) : DS_FLEET_INSTEP;
}

/* A transaction undoes nothing: if the snapshot couldn't be set, the stream would be trimmed all the same. So a key
 * that denies anything ends the compaction here. */
static enum ds_fleet_word snapshot_watched(struct ds_fleet *fleet) {
    struct text held = {0};
    struct watched watched = {.trimmed = 0};
    enum ds_fleet_word word = prepare_snapshot(fleet, &held, &watched);
    if (server_is_connected(&fleet->server)) {
        link_done(&fleet->server.producer);
        fleet->compacting.state = COMPACTING_WRITES;
        if (word == DS_FLEET_INSTEP && held.length) {
            ask_to_write(fleet, &held, &watched);
        } else {
            link_ask(&fleet->server.producer, "UNWATCH");
        }
    }
    text_free(&held);
    return word;
}

/* ---- the answers ---- */

static enum ds_fleet_word note_written(struct ds_fleet *fleet, const redisReply *ids) {
    char at[DS_FLEET_ID];
    write_entry_id(at, fleet->compacting.at);
    fleet->compacting.written = fleet->compacting.at;
    fleet->state.compactions++;
    items_say(&fleet->items, "compacted: up to entry %s", at);
    producing_added_all(fleet, ids);
    return DS_FLEET_INSTEP;
}

static enum ds_fleet_word snapshot_written(struct ds_fleet *fleet) {
    const struct link *producer = &fleet->server.producer;
    const redisReply *error = error_of((redisReply **)producer->answers, producer->came);
    fleet->compacting.state = COMPACTING_RESTS;
    fleet->compacting.length = 0;
    if (producer->came < WRITING_QUESTIONS) return error ? server_denied(fleet, error) : DS_FLEET_INSTEP;
    const redisReply *done = producer->answers[WRITING_EXEC], *ids = is_list_of(done, 1) ? done->element[0] : NULL;
    if (is_list_of(ids, fleet->producing.parts)) return note_written(fleet, ids);
    producing_cut(&fleet->producing); /* a round of producing adds the outbox */
    if (is_error(ids)) error = ids;
    return error ? server_denied(fleet, error) : DS_FLEET_INSTEP;
}

/* After a watch the next round begins at once. */
static enum ds_fleet_word compacting_answered(struct ds_fleet *fleet) {
    return fleet->compacting.state == COMPACTING_WATCHES ? snapshot_watched(fleet) : snapshot_written(fleet);
}

const struct round compacting_round = {is_compacting_due, ask_to_watch, compacting_answered};
