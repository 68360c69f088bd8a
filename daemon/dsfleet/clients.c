/* The clients of dsfleet. See clients.h. */
#include "clients.h"
#include "clock.h"
#include "session.h"
#include <errno.h>
#include <linux/sockios.h>
#include <stdlib.h>
#include <string.h>
#include <sys/ioctl.h>
#include <sys/socket.h>
#include <unistd.h>

/* The others keep their order, from the oldest client to the newest. */
static void drop_client(struct clients *clients, size_t at) {
    struct client *client = clients->client[at];
    close(client->socket);
    wire_free(&client->wire);
    text_free(&client->held);
    free(client);
    clients->count--;
    memmove(clients->client + at, clients->client + at + 1, (clients->count - at) * sizeof *clients->client);
    if (at < clients->first) clients->first--;
}

/* Whether readers have half of the places: the others are for those that write. */
static bool readers_have_half(const struct clients *clients) {
    size_t readers = 0;
    for (size_t i = 0; i < clients->count; i++) readers += clients->client[i]->role == ROLE_READER;
    return readers >= clients->limits.clients / 2;
}

bool clients_add(struct clients *clients, int socket) {
    struct client *client = clients->count < clients->limits.clients ? calloc(1, sizeof *client) : NULL;
    if (!client) {
        close(socket);
        return false;
    }
    client->socket = socket;
    client->role = rights_of(&clients->rights, socket);
    bool is_reader = client->role == ROLE_READER;
    client->wire.ended = client->failed = client->role == ROLE_NOBODY || (is_reader && readers_have_half(clients));
    client->moved = client->active_at = clock_now();
    clients->client[clients->count++] = client;
    return true;
}

/* Bytes of answers that wait for a client. */
static size_t backlog(const struct client *client) { return client->held.length + client->wire.out.length; }

/* Whether the client's next lines may be answered: the last ones are, and the client reads. */
static bool is_free(const struct clients *clients, const struct client *client) {
    return !client->held.length && client->wire.out.length < clients->limits.output;
}

struct pollfd clients_watched(const struct clients *clients, const struct client *client) {
    const struct wire *wire = &client->wire;
    bool reads = !wire->ended && (client->gone || (is_free(clients, client) && wire->in.length < WIRE_READS));
    bool writes = wire->out.length > 0;
    return (struct pollfd){.fd = client->socket, .events = (short)((reads ? POLLIN : 0) | (writes ? POLLOUT : 0))};
}

/* Drops a client's answers. The lines that the client sent before are still carried out. */
static void hang_up(struct client *client) {
    client->gone = true;
    text_free(&client->held);
    text_free(&client->wire.out);
}

void clients_read(struct client *client, short events) {
    size_t before = client->wire.in.length;
    if (events & (POLLHUP | POLLERR)) hang_up(client);
    if (!(events & (POLLIN | POLLHUP | POLLERR))) return;
    if (!wire_read(&client->wire, client->socket)) client->failed = true;
    if (client->wire.in.length > before) client->active_at = clock_now();
}

/* ---- slow clients ---- */

/* Whether a client has left an answer unread for long, here or in the socket's buffer. */
static bool is_slow(const struct client *client, uint64_t now) {
    int unread = 0;
    if (now < client->moved + CLIENT_SLOW) return false;
    return client->wire.out.length || (!ioctl(client->socket, SIOCOUTQ, &unread) && unread > 0);
}

bool clients_drop_slowest(struct clients *clients, bool for_place) {
    uint64_t now = clock_now();
    size_t places = 0, room = 0, slowest = 0;
    for (size_t i = 0; i < clients->count; i++) {
        const struct client *client = clients->client[i];
        if (!is_slow(client, now)) continue;
        if (!places || client->moved < clients->client[slowest]->moved) slowest = i;
        places++;
        room += client->wire.out.length;
    }
    if (for_place ? places <= clients->limits.clients / 2 : room <= clients->limits.all_output / 2) return false;
    const char *needed = for_place ? "place" : "room";
    log_say(clients->log, LOG_WARN, "slow: a client that doesn't read is dropped, since others need its %s", needed);
    drop_client(clients, slowest);
    return true;
}

void clients_drop_idle(struct clients *clients) {
    static const uint8_t nothing[sizeof clients->client[0]->wire.listens];
    uint64_t now = clock_now(), limit = clients->limits.timeout * SECOND;
    for (size_t i = clients->count; limit && i-- > 0;) {
        const struct client *client = clients->client[i];
        bool is_idle = now >= client->active_at + limit && !backlog(client) && !memcmp(client->wire.listens, nothing, sizeof nothing);
        if (is_idle) drop_client(clients, i);
    }
}

/* ---- lines ---- */

/* Whether a line may be answered now. */
static bool may_answer(const struct clients *clients, const struct client *client, const char *line, size_t length) {
    bool fits = session_is_short(line, length);
    if (client->gone) return true;
    if (clients->waiting >= clients->limits.all_output) return fits && backlog(client) < CLIENT_FEW;
    return (fits || !clients->hurries) && backlog(client) < clients->limits.output;
}

/* Notes that a line isn't answered now. */
static void note_refused(struct clients *clients, const struct client *client) {
    clients->refused = true;
    clients->crowded |= clients->waiting >= clients->limits.all_output && backlog(client) < CLIENT_FEW;
}

/* Whether a client's further lines are left to a later turn: this one took long, or much waits for the stream. */
static bool is_turn_over(const struct clients *clients, const struct client *client, bool holds) {
    return clock_now() >= clients->turn_end || (holds && backlog(client) >= CLIENT_FEW);
}

/* Sets the watermark of the held answers: the entry that the stream must have before they are released. */
static void mark_held(struct clients *clients, struct client *client) {
    client->mark = client->was_held ? ds_fleet_mark_held(clients->fleet) : ds_fleet_mark(clients->fleet);
}

/* Answers the lines that a client has sent. If one says that a change is held, all these answers wait for the stream.
 * So a line whose answer may be long is answered alone. */
static bool answer_lines(struct clients *clients, struct client *client) {
    size_t done = 0, length, used;
    bool fine = true, holds = false, alone = false;
    client->was_held = false;
    while (fine && !alone && (used = wire_line(&client->wire, done, &length)) > 0) {
        const char *line = client->wire.in.bytes + done;
        bool may = may_answer(clients, client, line, length);
        alone = !client->gone && !session_is_short(line, length);
        if (!may) note_refused(clients, client);
        if (!may || (done && (alone || is_turn_over(clients, client, holds)))) break;
        size_t before = backlog(client);
        client->wire.lines++;
        if (client->gone) session_carry_out(clients, client, line, length);
        else fine = session_answer(clients, client, line, length, &holds) && text_put(&client->held, "\n", 1);
        clients->waiting += backlog(client) - before;
        clients->long_one |= alone;
        done += used;
    }
    wire_drop_lines(&client->wire, done);
    if (holds) mark_held(clients, client);
    else fine &= text_move(&client->wire.out, &client->held);
    return fine;
}

/* Room for long answers goes by turns to the client that was refused first, and to the newest one. By the first rule alone a client waits long
 * after many that don't read; by the second alone, for ever after those that come later. */
void clients_answer(struct clients *clients) {
    size_t count = clients->count, first = clients->first;
    clients->turn_end = clock_now() + CLIENTS_TURN;
    clients->crowded = clients->refused = clients->long_one = false;
    for (size_t i = 0; i < count; i++) {
        size_t at = clients->newest ? count - 1 - i : (clients->first + i) % count;
        struct client *client = clients->client[at];
        bool was_refused = clients->refused;
        if (is_free(clients, client) && !answer_lines(clients, client)) client->failed = true;
        if (clients->refused && !was_refused && !clients->newest) first = at;
        clients->hurries = clock_now() >= clients->turn_end;
    }
    clients->first = first;
    clients->newest ^= clients->long_one;
    clients->hurries = false;
}

/* ---- notices and writing ---- */

void clients_owe(struct clients *clients, const uint8_t owed[16]) {
    for (size_t i = 0; i < clients->count; i++) wire_owe(&clients->client[i]->wire, owed);
}

static void release_held(struct clients *clients, struct client *client) {
    if (!client->held.length) return;
    if (!client->mark) mark_held(clients, client); /* memory ran out */
    if (!ds_fleet_is_told(clients->fleet, client->mark)) return;
    text_move(&client->wire.out, &client->held);
}

static void write_out(struct client *client) {
    struct text *out = &client->wire.out;
    if (!out->length) return;
    ssize_t put = send(client->socket, out->bytes, out->length, MSG_DONTWAIT | MSG_NOSIGNAL);
    if (put < 0 && errno != EAGAIN && errno != EINTR) hang_up(client);
    if (put <= 0) return;
    text_drop(out, (size_t)put);
    client->moved = clock_now();
}

/* Whether nothing is left to be done for a client. */
static bool is_done(const struct client *client) {
    return client->failed || (client->wire.ended && !backlog(client) && !wire_has_line(&client->wire));
}

/* Whether a client has a line that may be answered. */
static bool is_ready(const struct clients *clients, const struct client *client) {
    size_t length;
    const struct wire *wire = &client->wire;
    return is_free(clients, client) && wire_line(wire, 0, &length) && may_answer(clients, client, wire->in.bytes, length);
}

bool clients_write(struct clients *clients) {
    bool ready = false;
    clients->waiting = 0;
    for (size_t i = clients->count; i-- > 0;) {
        struct client *client = clients->client[i];
        release_held(clients, client);
        if (!client->gone) wire_put_notices(&client->wire, clients->limits.output);
        write_out(client);
        if (client->failed && client->role == ROLE_NOBODY) log_say(clients->log, LOG_WARN, "stranger: a process of neither group hangs up");
        else if (client->failed) log_say(clients->log, LOG_WARN, "noroom: a client is dropped");
        if (is_done(client)) drop_client(clients, i);
        else clients->waiting += backlog(client);
    }
    if (clients->crowded && clients->waiting >= clients->limits.all_output) ready = clients_drop_slowest(clients, false);
    for (size_t i = 0; i < clients->count && !ready; i++) ready = is_ready(clients, clients->client[i]);
    return ready;
}

bool clients_are_done(const struct clients *clients) {
    for (size_t i = 0; i < clients->count; i++) {
        if (backlog(clients->client[i])) return false;
    }
    return true;
}

void clients_close(struct clients *clients) {
    while (clients->count) drop_client(clients, clients->count - 1);
}
