/* A client's session. See session.h. */
#include "session.h"
#include "figures.h"
#include "lines.h"
#include <string.h>

/* ---- rights ---- */

static bool is_change(const struct request *it) {
    static const char *const changes[] = {"publish", "delete", "sweep", "offer", NULL};
    return request_is_any(it, changes) && memchr(it->line, ' ', it->length);
}

/* The word by which a line is refused before the store reads it, or NULL. An offer has no sender. */
static const char *refusal_of(const struct client *client, const struct request *line) {
    struct request it = *line;
    const char *sender;
    if (!is_change(&it)) return NULL;
    if (client->role != ROLE_WRITER) return "notallowed";
    size_t length = request_is(&it, "offer") ? 0 : request_take(&it, &sender);
    bool is_own = length && strlen(client->endpoint) == length && !memcmp(sender, client->endpoint, length);
    return *client->endpoint && !is_own ? "notsender" : NULL;
}

/* Whether a client that is there made the subscription. */
static bool is_owned(const struct clients *clients, const struct client *but, long sub) {
    for (size_t i = 0; i < clients->count; i++) {
        const struct client *client = clients->client[i];
        if (client != but && !client->gone && subs_have(client->wire.owns, sub)) return true;
    }
    return false;
}

/* Whether readers have made half of the subscriptions that there may be: the others are for those that write. */
static bool readers_have_half(const struct clients *clients) {
    int count = 0;
    for (size_t i = 0; i < clients->count; i++) {
        const struct client *client = clients->client[i];
        for (long sub = 0; sub < WIRE_SUBS; sub++) count += client->role == ROLE_READER && !client->gone && subs_have(client->wire.owns, sub);
    }
    return count >= WIRE_SUBS / 2;
}

/* Returns a number that no client has, or -1. Clients that choose numbers begin low, so this begins high. */
static long free_sub(const struct clients *clients) {
    long sub = WIRE_SUBS - 1;
    while (sub >= 0 && is_owned(clients, NULL, sub)) sub--;
    return sub;
}

/* ---- answers ---- */

/* The caller of a line, and whether the answer says that a change is held. */
struct turn { struct clients *clients; struct client *client; bool holds; };

static bool refuse(struct turn *turn, const char *word) { return lines_put_refused(word, &turn->client->held); }

static bool answer_line(struct turn *turn, const char *line, size_t length) {
    struct client *client = turn->client;
    struct lines_said said;
    bool fits = lines_put(turn->clients->store, &client->wire, line, length, &client->held, &said);
    clients_owe(turn->clients, said.owed);
    turn->holds |= said.holds;
    client->was_held |= said.was_held;
    return fits;
}

static bool answer_store(struct turn *turn, const struct request *it) { return answer_line(turn, it->line, it->length); }

/* `as ENDPOINT`, once: from now on the client changes something under this endpoint alone. */
static bool answer_as(struct turn *turn, const struct request *it) {
    struct client *client = turn->client;
    uint32_t generation;
    uint16_t slot;
    if (it->length == strlen("as")) return answer_store(turn, it);
    bool is_endpoint = it->left < CLIENT_ENDPOINT && read_endpoint(it->rest, it->left, &generation, &slot);
    if (!is_endpoint) return lines_put_bad(&client->wire, strlen("as "), &client->held);
    if (*client->endpoint) return refuse(turn, "notallowed");
    memcpy(client->endpoint, it->rest, it->left);
    return text_print(&client->held, "as %s\n", client->endpoint);
}

static bool answer_listen(struct turn *turn, const struct request *it) {
    long sub = read_plain(it->rest, it->left, WIRE_SUBS - 1);
    if (sub < 0) return answer_store(turn, it);
    subs_add(turn->client->wire.listens, sub);
    return text_print(&turn->client->held, "listening %ld\n", sub);
}

/* `check SUB ..` of another client's subscription is refused. */
static bool answer_check(struct turn *turn, const struct request *it) {
    struct request rest = *it;
    long sub = request_sub(&rest);
    bool is_anothers = sub >= 0 && rest.left && is_owned(turn->clients, turn->client, sub);
    return is_anothers ? refuse(turn, "notallowed") : answer_store(turn, it);
}

/* Puts `subscribe SUB ` and the rest of a line. A subscription that a client left is in the store still, so `new`
 * becomes `over`. */
static bool rewrite(struct text *to, long sub, const struct request *query, bool is_own) {
    static const char new_one[] = " new", over[] = " over";
    size_t length = query->left, end = strlen(new_one);
    bool is_over = !is_own && length > end && !memcmp(query->rest + length - end, new_one, end);
    if (!text_print(to, "subscribe %ld ", sub) || !text_put(to, query->rest, is_over ? length - end : length)) return false;
    return !is_over || text_put(to, over, strlen(over));
}

/* `subscribe SUB ..`, or `subscribe ..` for a number that is free. The place of a fault is that in the client's own
 * line. */
static bool answer_subscribe(struct turn *turn, const struct request *it) {
    struct wire *wire = &turn->client->wire;
    struct text *held = &turn->client->held, rewritten = {0};
    struct request query = *it;
    size_t before = held->length;
    bool is_chosen = it->left && *it->rest == '"';
    long sub = is_chosen ? free_sub(turn->clients) : request_sub(&query);
    if (is_chosen && sub < 0) return refuse(turn, "toomany");
    if (sub < 0 || !query.left) return answer_store(turn, it);
    if (is_owned(turn->clients, turn->client, sub)) return refuse(turn, "notallowed");
    bool is_one_more = turn->client->role == ROLE_READER && !subs_have(wire->owns, sub);
    if (is_one_more && readers_have_half(turn->clients)) return refuse(turn, "toomany");
    bool fits = rewrite(&rewritten, sub, &query, subs_have(wire->owns, sub)) && answer_line(turn, rewritten.bytes, rewritten.length);
    text_free(&rewritten);
    if (!fits) return false;
    bool is_made = text_begins(held->bytes + before, held->length - before, "subscribed ");
    if (is_made) subs_add(wire->owns, sub);
    if (is_made || !text_begins(held->bytes + before, held->length - before, "badline ")) {
        return !is_made || !is_chosen || text_print(held, "sub %ld\n", sub);
    }
    held->length = before;
    return answer_store(turn, it);
}

static bool answer_figures(struct turn *turn, const struct request *it) {
    return memchr(it->line, ' ', it->length) ? answer_store(turn, it) : figures_put(turn->clients, it->line, &turn->client->held);
}

/* The lines that aren't the store's alone; the answers to those that are marked may be long. */
static const struct own { const char *word; bool (*answer)(struct turn *, const struct request *); bool is_long; } own[] = {
    {"as", answer_as, false}, {"listen", answer_listen, false}, {"check", answer_check, true},
    {"subscribe", answer_subscribe, false}, {"state", answer_figures, false}, {"metrics", answer_figures, false},
};

static const struct own *own_of(const struct request *it) {
    for (size_t i = 0; i < sizeof own / sizeof *own; i++) {
        if (request_is(it, own[i].word)) return &own[i];
    }
    return NULL;
}

bool session_is_short(const char *line, size_t length) {
    const struct request it = request_of(line, length);
    const struct own *row = own_of(&it);
    return row ? !row->is_long : lines_is_short(line, length);
}

bool session_answer(struct clients *clients, struct client *client, const char *line, size_t length, bool *holds) {
    struct turn turn = {.clients = clients, .client = client};
    const struct request it = request_of(line, length);
    const struct own *row = own_of(&it);
    const char *refusal = refusal_of(client, &it);
    bool is_whole = !client->wire.too_long, fits;
    client->wire.too_long = false;
    if (!is_whole) fits = answer_line(&turn, NULL, 0);
    else if (refusal) fits = refuse(&turn, refusal);
    else fits = row ? row->answer(&turn, &it) : answer_store(&turn, &it);
    *holds |= turn.holds;
    return fits;
}

void session_carry_out(struct clients *clients, struct client *client, const char *line, size_t length) {
    struct lines_said said;
    const struct request it = request_of(line, length);
    bool is_whole = !client->wire.too_long;
    client->wire.too_long = false;
    if (is_whole && request_is(&it, "as")) {
        answer_as(&(struct turn){.clients = clients, .client = client}, &it); /* decides on the lines that follow */
        text_free(&client->held);                                             /* nobody reads the answer */
        return;
    }
    if (!is_whole || !is_change(&it) || refusal_of(client, &it)) return; /* a subscription would be nobody's */
    lines_answer(clients->store, line, length, NULL, &said);
    clients_owe(clients, said.owed);
}
