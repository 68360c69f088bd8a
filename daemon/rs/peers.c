/* Who speaks to dsrs by lines. See peers.h. */
#include "peers.h"
#include "lines.h"
#include "requests.h"
#include "rs.h"
#include <errno.h>
#include <stdlib.h>
#include <string.h>
#include <sys/epoll.h>
#include <sys/socket.h>
#include <unistd.h>

/* ---- who there is ---- */

bool peers_may_order(uid_t user) { return !user || user == geteuid(); }

void peers_add(struct peers *peers, int socket, struct instance *instance, uid_t user) {
    struct peer *peer = peers->count < PEERS ? calloc(1, sizeof *peer) : NULL;
    if (!peer) {
        close(socket);
        return;
    }
    peer->is_instance = instance;
    peer->instance = instance;
    peer->user = user;
    peer->gone = !watch_open(&peer->socket, peers->epoll, socket, EPOLLIN);
    peers->peer[peers->count++] = peer;
    peers->of_public += !instance;
}

static void drop(struct peers *peers, size_t at) {
    struct peer *peer = peers->peer[at];
    watch_close(&peer->socket, peers->epoll);
    wire_free(&peer->wire);
    ancillary_drop(&peer->ancillary);
    peers->of_public -= !peer->is_instance;
    free(peer);
    peers->peer[at] = peers->peer[--peers->count];
}

static struct peer *peer_of(const struct peers *peers, const struct instance *instance) {
    for (size_t i = 0; i < peers->count; i++)
        if (peers->peer[i]->instance == instance && !peers->peer[i]->gone) return peers->peer[i];
    return NULL;
}

void peers_forget(struct peers *peers, const struct instance *instance) {
    struct peer *peer = peer_of(peers, instance);
    if (!peer) return;
    peer->gone = true;
    peer->instance = NULL;
    shutdown(peer->socket.file, SHUT_RDWR); /* for descendants that hold the other end, too */
}

/* ---- their lines ---- */

static void read_in(struct peer *peer) {
    peer->socket.ready = 0;
    if (!wire_read(&peer->wire, peer->socket.file)) peer->gone = true;
}

static bool has_room(const struct peer *peer) { return !peer->gone && peer->wire.out.length < WIRE_WAITS; }

static bool may_answer(const struct peer *peer) { return has_room(peer) && peer->ancillary.count < ANCILLARY; }

/* Whether the peer has a line that may be answered. */
static bool is_ready(const struct peer *peer) {
    return may_answer(peer) && wire_has_line(&peer->wire);
}

static void answer_lines(struct rs *rs, struct peer *peer) {
    struct wire *wire = &peer->wire;
    size_t done = 0, length = 0, used = 0;
    for (unsigned left = PEER_LINES; left && may_answer(peer) && (used = wire_line(wire, done, &length)) > 0; left--) {
        bool is_long = wire->too_long || length > WIRE_LINE;
        wire->lines++;
        bool put = is_long ? lines_put_bad(wire, WIRE_LINE, &wire->out) : requests_answer(rs, peer, wire->in.bytes + done, length);
        if (!put || !text_put(&wire->out, "\n", 1)) peer->gone = true; /* out of memory for the answer */
        wire->too_long = false;
        done += used;
    }
    wire_drop_lines(wire, done);
}

static bool is_done(const struct peer *peer) {
    return peer->wire.ended && !peer->wire.out.length && !wire_has_line(&peer->wire);
}

/* Where the public leaves too much unread, the one that leaves most is dropped. Returns whether one was. */
static bool drop_most(struct peers *peers) {
    struct peer *most = NULL;
    size_t waiting = 0;
    for (size_t i = 0; i < peers->count; i++) {
        struct peer *peer = peers->peer[i];
        if (peer->is_instance || peer->gone) continue;
        waiting += peer->wire.out.length;
        if (!most || peer->wire.out.length > most->wire.out.length) most = peer;
    }
    if (waiting <= PEERS_WAIT) return false;
    most->gone = true;
    text_free(&most->wire.out);
    return true;
}

/* A peer that is added meanwhile comes after those that are there, and isn't ready. */
void peers_turn(struct rs *rs) {
    for (size_t i = 0; i < rs->peers.count; i++) {
        struct peer *peer = rs->peers.peer[i];
        if (peer->gone) continue;
        size_t before = peer->wire.out.length;
        if (peer->socket.ready & (EPOLLIN | EPOLLHUP | EPOLLERR)) read_in(peer);
        answer_lines(rs, peer);
        while (peer->wire.out.length > before && drop_most(&rs->peers)) continue;
    }
}

/* A dead instance's socket held fewer bytes than PEERS_LAST. Its descendants, which live still, may write without end. */
void peers_finish(struct rs *rs, struct instance *instance) {
    struct peer *peer = peer_of(&rs->peers, instance);
    size_t count = 0, all = 0;
    if (!peer) return;
    do {
        size_t before = peer->wire.in.length;
        read_in(peer);
        count = peer->wire.in.length - before;
        all += count;
        do answer_lines(rs, peer);
        while (is_ready(peer));
    } while (count && all < PEERS_LAST && may_answer(peer));
}

/* ---- bytes to be sent ---- */

void peers_tell(struct peers *peers, const struct instance *instance, const char *line) {
    struct peer *peer = peer_of(peers, instance);
    if (peer && has_room(peer)) text_print(&peer->wire.out, "%s\n\n", line);
}

const char *peers_connect(struct peers *peers, struct peer *from, const struct instance *to) {
    struct peer *other = peer_of(peers, to);
    int pair[2];
    while (other && other->ancillary.count == ANCILLARY && ancillary_send(&other->ancillary, &other->wire.out, other->socket.file)) {}
    if (!other || !may_answer(other)) return "full";
    size_t at = other->wire.out.length;
    if (socketpair(AF_UNIX, SOCK_SEQPACKET | SOCK_CLOEXEC, 0, pair)) return "noroom";
    if (!text_print(&other->wire.out, "peer %s\n\n", from->instance->endpoint)) {
        close(pair[0]);
        close(pair[1]);
        return "noroom";
    }
    ancillary_take(&other->ancillary, at, pair[1]);
    ancillary_take(&from->ancillary, from->wire.out.length, pair[0]);
    return NULL;
}

void peers_owe(struct peers *peers, const uint8_t owed[16]) {
    for (size_t i = 0; i < peers->count; i++) wire_owe(&peers->peer[i]->wire, owed);
}

/* Gives up the bytes for a peer that hung up. The lines that the peer sent before are still carried out, if they may
 * change something. */
static void hang_up(struct peer *peer) {
    peer->wire.ended = true;
    peer->gone |= !peer->is_instance && !peers_may_order(peer->user);
    text_free(&peer->wire.out);
    ancillary_drop(&peer->ancillary);
}

static void write_out(struct peer *peer) {
    if (!peer->wire.out.length) return;
    if (!ancillary_send(&peer->ancillary, &peer->wire.out, peer->socket.file) && errno != EAGAIN && errno != EINTR) hang_up(peer);
}

/* A peer that has ended and isn't written to isn't watched, since the hang-up would be reported again and again. */
static void watch_peer(struct peers *peers, struct peer *peer) {
    const struct wire *wire = &peer->wire;
    bool reads = !wire->ended && may_answer(peer) && wire->in.length < WIRE_READS;
    watch_for(&peer->socket, peers->epoll, (reads ? EPOLLIN : 0U) | (wire->out.length ? EPOLLOUT : 0U));
}

bool peers_send(struct peers *peers) {
    bool ready = false;
    for (size_t i = peers->count; i-- > 0;) {
        struct peer *peer = peers->peer[i];
        if (!peer->gone) {
            wire_put_notices(&peer->wire, WIRE_WAITS);
            write_out(peer);
        }
        if (peer->gone || is_done(peer)) {
            drop(peers, i);
            continue;
        }
        watch_peer(peers, peer);
        ready |= is_ready(peer);
    }
    return ready;
}

void peers_close(struct peers *peers) {
    while (peers->count) drop(peers, peers->count - 1);
}
