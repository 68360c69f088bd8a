/* How a loss is noticed. See loss.h. */
#include "loss.h"

void look_ask(struct link *link, const char *stream) {
    link_ask(link, "XINFO STREAM %s:items", stream);
    link_ask(link, "HMGET %s:snapshot at trimmed scope", stream);
    link_ask(link, "HSTRLEN %s:snapshot items", stream);
}

struct stock look_answered(struct redisReply **looked) {
    const redisReply *stream = looked[LOOK_STREAM], *newest = field_of(stream, "last-entry");
    redisReply **fields = looked[LOOK_SNAPSHOT]->element;
    struct stock stock = {.snapshot = id_of(fields[LOOK_AT]), .generated = id_of(field_of(stream, "last-generated-id"))};
    if (is_list_of(newest, ENTRY_PARTS)) stock.newest = id_of(newest->element[ENTRY_ID]);
    stock.bytes = count_of(looked[LOOK_BYTES]);
    stock.added = count_of(field_of(stream, "entries-added"));
    stock.gone = stock.added - count_of(field_of(stream, "length")) - count_of(fields[LOOK_TRIMMED]);
    if (is_above(stock.snapshot, stock.generated)) { /* an entry that never existed */
        stock.snapshot = NO_ENTRY;
        stock.bytes = 0;
    }
    return stock;
}

bool has_less(const struct stock *before, const struct stock *now) {
    if (is_above(before->snapshot, now->snapshot) || now->gone > before->gone || now->added < before->added) return true;
    return now->bytes < before->bytes && !is_above(now->snapshot, before->snapshot);
}

static bool is_none(struct entry_id id) { return is_same_entry(id, NO_ENTRY); }

void trail_add(struct trail *trail, struct entry_id entry) {
    if (is_none(trail->first)) trail->first = entry;
    if (is_none(trail->later)) trail->later = entry;
    trail->last = entry;
}

void trail_ask(struct trail *trail) {
    trail->asked = trail->last;
    trail->later = NO_ENTRY;
}

void trail_looked(struct trail *trail) {
    trail->sure = trail->asked;
    trail->first = trail->later;
}
