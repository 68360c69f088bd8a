/* The other bridges of a stream. See peers.h. */
#include "peers.h"
#include "text.h"
#include <limits.h>
#include <stdio.h>
#include <stdlib.h>
#include <string.h>

enum {
    DIFFERS = 2,    /* rounds in which two differ before it counts: one may just have taken what it refused before */
    DEAD = 2,       /* rounds without news of a peer before it no longer counts, */
    BURIED = 60,    /* and before its digest is deleted */
    HEX_DIGITS = 16 /* of a digest */
};

static const char form[] = "3-"; /* how digests are made, at the front of each: those made in another way aren't compared */

static bool is_of_same(const struct digest *a, const struct digest *b) { return is_same_entry(a->at, b->at) && a->mark == b->mark; }

void peers_keep(struct peers *peers, struct digest digest) {
    struct digest *newest = peers->own_count ? &peers->own[(peers->own_count - 1) % OWN_DIGESTS] : NULL;
    if (newest && is_of_same(newest, &digest)) {
        *newest = digest;
    } else {
        peers->own[peers->own_count++ % OWN_DIGESTS] = digest;
    }
}

bool peers_write(const struct peers *peers, unsigned long long beat, char text[DIGEST_TEXT]) {
    if (!peers->own_count) return false;
    const struct digest *newest = &peers->own[(peers->own_count - 1) % OWN_DIGESTS];
    snprintf(text, DIGEST_TEXT, "%s%016llx-%llu-%llu-%llu-%llu", form, newest->value, beat, newest->mark, newest->at.first, newest->at.second);
    return true;
}

void peers_forget_own(struct peers *peers) {
    peers->own_count = 0;
    peers->apart = (struct digest){.mark = 0};
}

/* Reads a number and the `-` after it, and returns what follows; NULL: it is something else. */
static const char *read_part(const char *text, unsigned long long *number) {
    size_t digits = text ? read_digits(text, strlen(text), ULLONG_MAX, number) : 0;
    return digits && text[digits] == '-' ? text + digits + 1 : NULL;
}

/* Reads `3-DIGEST-BEAT-MARK-FIRST-SECOND`. */
static bool read_digest(const char *text, struct digest *digest, unsigned long long *beat) {
    char hex[HEX_DIGITS + 1] = "";
    if (!text_begins(text, strlen(text), form)) return false;
    text += strlen(form);
    if (strspn(text, "0123456789abcdef") != HEX_DIGITS || text[HEX_DIGITS] != '-') return false;
    memcpy(hex, text, HEX_DIGITS);
    digest->value = strtoull(hex, NULL, 16);
    const char *id = read_part(read_part(text + HEX_DIGITS + 1, beat), &digest->mark);
    return id && read_entry_id(id, &digest->at);
}

static struct peer *peer_of(struct peers *peers, const char *id) {
    for (size_t i = 0; i < peers->count; i++) {
        if (!strcmp(peers->peer[i].id, id)) return &peers->peer[i];
    }
    if (peers->count == PEERS || strlen(id) >= PEER_ID) return NULL;
    struct peer *peer = &peers->peer[peers->count++];
    *peer = (struct peer){.still = 0};
    snprintf(peer->id, sizeof peer->id, "%s", id);
    return peer;
}

const struct digest *peers_own(const struct peers *peers, const struct digest *other) {
    unsigned long kept = peers->own_count < OWN_DIGESTS ? peers->own_count : OWN_DIGESTS;
    for (unsigned long i = 0; i < kept; i++) {
        if (is_of_same(&peers->own[i], other)) return &peers->own[i];
    }
    return NULL;
}

/* Compares a peer's digest with the own one of the same entry. If there is none, the last result stays. At a marked entry
 * that is the last one, a digest by its id is the later one. */
static void judge_digest(struct peers *peers, struct peer *peer) {
    const struct digest *own = peers_own(peers, &peer->newest);
    if (!own) return;
    peer->differs = own->value == peer->newest.value ? 0 : peer->differs + 1;
    bool is_later = is_above(own->at, peers->apart.at) || (is_same_entry(own->at, peers->apart.at) && !own->mark);
    if (peer->differs && is_later) peers->apart = *own;
}

static void compare_digest(struct peers *peers, const char *me, const char *id, const char *text) {
    struct digest theirs;
    unsigned long long beat;
    if (!strcmp(id, me) || !read_digest(text, &theirs, &beat)) return;
    struct peer *peer = peer_of(peers, id);
    if (!peer) return;
    peer->there = true;
    peer->newest = theirs;
    peer->still = peer->beat == beat ? peer->still + 1 : 0;
    peer->beat = beat;
    if (!peer->still) judge_digest(peers, peer);
    peers->differing += peer->still < DEAD && peer->differs >= DIFFERS;
}

/* Whether this bridge is the one that sends everything: the first by name of those that hold the same as this one at the last entry at
 * which others differ. A bridge that waits has a digest of an earlier entry. */
static bool is_first(const struct peers *peers, const char *me) {
    const struct digest *own = peers_own(peers, &peers->apart);
    for (size_t i = 0; own && i < peers->count; i++) {
        const struct peer *peer = &peers->peer[i];
        bool is_same = is_of_same(&peer->newest, own) && peer->newest.value == own->value;
        if (is_same && peer->still < DEAD && strcmp(peer->id, me) < 0) return false;
    }
    return true;
}

/* Forgets peers whose digests are gone. */
static void forget_gone(struct peers *peers) {
    size_t kept = 0;
    for (size_t i = 0; i < peers->count; i++) {
        if (peers->peer[i].there) peers->peer[kept++] = peers->peer[i];
    }
    peers->count = kept;
}

void peers_compare(struct peers *peers, const char *me, const redisReply *digests) {
    peers->differing = 0;
    for (size_t i = 0; i < peers->count; i++) peers->peer[i].there = false;
    for (size_t i = 0; i + 1 < digests->elements; i += 2) {
        const redisReply *id = digests->element[i], *text = digests->element[i + 1];
        if (is_text(id) && is_text(text)) compare_digest(peers, me, id->str, text->str);
    }
    forget_gone(peers);
    peers->is_first = is_first(peers, me);
}

const char *peers_gone(const struct peers *peers) {
    for (size_t i = 0; i < peers->count; i++) {
        if (peers->peer[i].still >= BURIED) return peers->peer[i].id;
    }
    return NULL;
}
