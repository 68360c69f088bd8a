/* A server's drivers. See drivers.h. */
#include "drivers.h"
#include "clock.h"
#include "labels.h"
#include "table.h"
#include <errno.h>
#include <inttypes.h>
#include <stdio.h>
#include <stdlib.h>
#include <sys/socket.h>
#include <sys/un.h>
#include <unistd.h>

enum { BATCH = 64, LOOK_EACH = 50 /* milliseconds */, LOOKS = 20 /* without an answer, before the server complains */ };

static const struct serving *serving;
static struct driver *driver;
static unsigned drivers;
static struct job job[JOBS]; /* each at its id's rest */
static uint64_t next_id = SETUP_ID + 1;

void drivers_open(const struct serving *how, struct driver *which, unsigned count) {
    serving = how;
    driver = which;
    drivers = count;
    for (unsigned i = 0; i < count; i++) driver[i].socket = -1;
}

void drivers_note(const char *what, const struct driver *it, struct endpoint at, const char *why) {
    uint64_t now = clock_now();
    fprintf(stderr, "%" PRIu64 ".%06" PRIu64, now / second, now % second / 1000);
    fprintf(stderr, " %s %s %u/%u %s\n", what, it->label, at.generation, at.slot, why);
}

/* ---- where a driver is ---- */

bool drivers_is_at(const struct driver *it, struct endpoint at) {
    return it->at.generation == at.generation && it->at.slot == at.slot;
}

/* Whether it is an instance of which RS doesn't know that it died. */
static bool is_known(const struct driver *it, struct endpoint at) {
    struct endpoint now;
    return table_find(it->label, &now.generation, &now.slot) && now.generation == at.generation && now.slot == at.slot;
}

bool drivers_is_here(const struct driver *it) {
    struct endpoint now;
    if (!table_find(it->label, &now.generation, &now.slot)) return false;
    return it->socket >= 0 || !drivers_is_at(it, now);
}

static void hang_up(struct driver *it) {
    if (it->socket >= 0) close(it->socket);
    it->socket = -1;
    ring_clear(&it->out);
}

void drivers_blame(struct driver *it, struct endpoint at, const char *why) {
    if (!drivers_is_at(it, at) || it->is_blamed) return;
    it->is_blamed = true;
    hang_up(it);
    if (!is_known(it, at)) return;
    drivers_note("complains", it, at, why);
    labels_complain(at.generation, at.slot);
}

/* Connects to the endpoint of a move. If nobody is there any more, another move will come. */
static void meet(struct driver *it, struct endpoint at) {
    struct sockaddr_un address = {.sun_family = AF_UNIX};
    if (drivers_is_at(it, at)) return;
    hang_up(it);
    it->at = at;
    it->is_blamed = it->has_answered = false;
    it->looks = 0;
    snprintf(address.sun_path, sizeof address.sun_path, "%s/%u.%u", getenv("DS_FOLDER"), at.generation, at.slot);
    it->socket = socket(AF_UNIX, SOCK_SEQPACKET | SOCK_CLOEXEC, 0);
    if (connect(it->socket, (struct sockaddr *)&address, sizeof address)) hang_up(it);
}

/* ---- jobs and moves ---- */

struct job *drivers_ask(struct driver *to, struct head head, const uint8_t *data, unsigned task, unsigned step) {
    for (unsigned tries = 0; job[next_id % JOBS].is_used; next_id++)
        if (tries++ == JOBS) exit(3);
    struct job *it = &job[next_id % JOBS];
    *it = (struct job){.head = head, .driver = to, .data = data, .task = task, .step = step, .is_used = true};
    it->head.id = next_id++;
    if (!table_submit(it->head.id, to->unit)) exit(3);
    return it;
}

static void send_job(struct job *it, struct endpoint at) {
    meet(it->driver, at);
    it->is_sent = true;
    if (it->driver->socket >= 0) ring_put(&it->driver->out, it->head.id);
}

/* The server may ask for more at once, so the job's place is free before. */
static void finish(struct job *it, const struct frame *answer) {
    struct job done = *it;
    it->is_used = false;
    serving->done(&done, answer);
}

static void start(const struct ds_move *move, struct endpoint at) {
    for (unsigned i = 0; i < drivers; i++) {
        if (driver[i].unit != move->unit) continue;
        meet(&driver[i], at);
        if (driver[i].socket >= 0) ring_put(&driver[i].out, SETUP_ID);
    }
}

static void act(const struct ds_move *move) {
    struct job *it = &job[move->id % JOBS];
    struct endpoint at = {move->generation, move->slot};
    switch ((enum ds_move_kind)move->kind) {
    case DS_MOVE_START: start(move, at); break;
    case DS_MOVE_SEND: send_job(it, at); break;
    case DS_MOVE_DONE: finish(it, it->answer); break;
    case DS_MOVE_FAULT: finish(it, NULL); break;
    case DS_MOVE_HELD: break;
    }
}

/* A move may lead to more jobs, so to more moves. */
void drivers_move(void) {
    for (struct ds_move move; table_next(&move);) act(&move);
}

/* ---- what drivers say ---- */

/* What is wrong with an answer, or NULL. */
static const char *fault_of(const struct driver *by, const struct job *it, const struct frame *frame, ssize_t got) {
    if (!frame_is_whole(frame, got)) return "length";
    if (!it->is_used || it->head.id != frame->head.id || it->driver != by || !it->is_sent) return "id";
    if (frame->head.place != it->head.place) return "place";
    if (frame->head.verb != DONE && frame->head.verb != FAILED) return "verb";
    bool has_data = it->head.verb == READ && frame->head.verb == DONE;
    return frame->head.length == (has_data ? BLOCK : 0) ? NULL : "data";
}

/* A frame that answers no job: a port was set up, or a datagram came. */
static bool is_unasked(struct driver *by, const struct frame *frame, ssize_t got) {
    if (!frame_is_whole(frame, got) || frame->head.id != SETUP_ID) return false;
    if (frame->head.verb == DONE && serving->is_set_up) serving->is_set_up(by);
    else if (frame->head.verb == RECEIVED && serving->received) serving->received(by, frame);
    else return false;
    return true;
}

static void take(struct driver *by, const struct frame *frame, ssize_t got) {
    struct job *it = &job[frame->head.id % JOBS];
    if (is_unasked(by, frame, got)) return;
    const char *why = fault_of(by, it, frame, got);
    it->answer = frame;
    if (!why && !table_reply(by->at.generation, by->at.slot, it->head.id)) why = "reply";
    if (why) {
        drivers_blame(by, by->at, why);
        return;
    }
    if (!by->has_answered) drivers_note("first", by, by->at, "");
    by->has_answered = true;
    drivers_move();
}

static void hear(struct driver *by) {
    static struct frame frame;
    for (int i = 0; i < BATCH && by->socket >= 0; i++) {
        ssize_t got = recv(by->socket, &frame, sizeof frame, MSG_DONTWAIT);
        if (got < 0 && (errno == EAGAIN || errno == EINTR)) return;
        if (got <= 0) hang_up(by);
        else take(by, &frame, got);
    }
}

/* ---- requests to drivers ---- */

static struct frame frame_of(const struct driver *to, uint64_t id) {
    const struct job *it = &job[id % JOBS];
    struct frame frame = {.head = {.id = SETUP_ID, .place = to->unit, .verb = SETUP}};
    if (id == SETUP_ID) return frame;
    frame.head = it->head;
    if (it->head.length) memcpy(frame.data, it->data, it->head.length);
    return frame;
}

static void write_to(struct driver *it) {
    while (it->socket >= 0 && !ring_is_empty(&it->out)) {
        struct frame frame = frame_of(it, ring_first(&it->out));
        ssize_t put = send(it->socket, &frame, sizeof frame.head + frame.head.length, MSG_DONTWAIT | MSG_NOSIGNAL);
        if (put < 0 && (errno == EAGAIN || errno == EINTR)) return;
        if (put < 0) hang_up(it);
        else ring_drop(&it->out);
    }
}

/* Complains of a driver that doesn't answer its oldest request, or hung up, though RS finds it alive. It counts looks, since time in
 * which the server itself didn't run isn't the driver's fault. */
static void look_at(struct driver *it) {
    uint64_t oldest = 0;
    for (unsigned i = 0; i < JOBS; i++)
        if (job[i].is_used && job[i].driver == it && job[i].is_sent && (!oldest || job[i].head.id < oldest)) oldest = job[i].head.id;
    it->looks = oldest && oldest == it->oldest ? it->looks + 1 : 0;
    it->oldest = oldest;
    if (it->looks > LOOKS) drivers_blame(it, it->at, it->socket < 0 ? "hung up" : "no answer");
}

void drivers_look(void) {
    static uint64_t looked;
    uint64_t now = clock_now();
    if (now - looked < LOOK_EACH * millisecond) return;
    looked = now;
    for (unsigned i = 0; i < drivers; i++) look_at(&driver[i]);
}

void drivers_poll(struct pollfd *polled) {
    for (unsigned i = 0; i < drivers; i++)
        polled[i] = (struct pollfd){.fd = driver[i].socket, .events = (short)(POLLIN | (ring_is_empty(&driver[i].out) ? 0 : POLLOUT))};
}

void drivers_turn(const struct pollfd *polled) {
    for (unsigned i = 0; i < drivers; i++)
        if (polled[i].revents & ~POLLOUT && polled[i].fd == driver[i].socket) hear(&driver[i]);
}

void drivers_write(void) {
    drivers_move();
    for (unsigned i = 0; i < drivers; i++) write_to(&driver[i]);
}
