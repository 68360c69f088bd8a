/* netserver LABEL: a network server. Its clients ask for chunks of a file that is at the other end of a wire. A request that was with a
 * driver when it died comes back as a fault; the port is set up anew, and what has no answer is sent again. */
#include "clients.h"
#include "clock.h"
#include "datagram.h"
#include "drivers.h"
#include "labels.h"
#include "table.h"
#include <stdlib.h>

enum { PORT = 1, TASKS = 256, TURN = 20, SEND_AGAIN = 100 /* milliseconds */ };

struct task {
    bool is_used, is_sending, is_answered, is_sent;
    int client;
    uint64_t client_id, tried; /* when; 0: at once */
    struct datagram request, chunk;
};

static struct driver driver;
static struct task task[TASKS];
static unsigned used;

static bool has_room(void) { return used < TASKS; }

static void free_task(struct task *it) {
    if (!it->is_sent || it->is_sending) return;
    it->is_used = false;
    used--;
}

static void send_request(struct task *it) {
    it->tried = clock_now();
    it->is_sending = true;
    struct head head = {.place = PORT, .verb = SEND, .length = (uint32_t)datagram_size(&it->request)};
    drivers_ask(&driver, head, (const uint8_t *)&it->request, (unsigned)(it - task), 0);
}

/* A driver that isn't there is tried again when its successor is set up, or after a while. */
static void send_again(uint64_t tried_before) {
    for (unsigned i = 0; i < TASKS; i++) {
        struct task *it = &task[i];
        if (it->is_used && !it->is_answered && !it->is_sending && it->tried < tried_before) send_request(it);
    }
}

static void is_set_up(struct driver *it) {
    drivers_note("begun", it, it->at, "");
    send_again(UINT64_MAX);
}

static void done(struct job *job, const struct frame *answer) {
    struct task *it = &task[job->task];
    it->is_sending = false;
    if (!answer) drivers_note("fault", &driver, driver.at, "");
    free_task(it);
}

/* A datagram that is spoiled, or that nobody waits for, is dropped. The wire may have done it, so the driver isn't blamed. */
static void received(struct driver *by, const struct frame *frame) {
    struct datagram chunk;
    memcpy(&chunk, frame->data, sizeof chunk);
    if (!datagram_is_right(&chunk, frame->head.length) || chunk.is_request) {
        drivers_note("spoiled", by, by->at, "");
        return;
    }
    for (unsigned i = 0; i < TASKS; i++) {
        struct task *it = &task[i];
        if (!it->is_used || it->is_answered || it->request.chunk != chunk.chunk) continue;
        it->chunk = chunk;
        it->is_answered = true;
        it->is_sent = it->client < 0;
        if (it->client >= 0) clients_answer(it->client, i);
        free_task(it);
    }
}

static bool take(int client, const struct frame *frame, ptrdiff_t got) {
    unsigned number = 0;
    if (!frame_is_whole(frame, got) || frame->head.verb != READ || frame->head.length) return false;
    while (task[number].is_used) number++;
    struct task *it = &task[number];
    *it = (struct task){.is_used = true, .client = client, .client_id = frame->head.id};
    it->request.chunk = frame->head.place;
    it->request.is_request = 1;
    it->request.sum = datagram_sum(&it->request);
    used++;
    send_request(it);
    return true;
}

static struct frame answer(unsigned number) {
    const struct task *it = &task[number];
    struct frame frame = {.head = {.id = it->client_id, .place = it->request.chunk, .verb = DONE, .length = it->chunk.length}};
    memcpy(frame.data, it->chunk.data, it->chunk.length);
    return frame;
}

static void sent(unsigned number) {
    task[number].is_sent = true;
    free_task(&task[number]);
}

static void drop(int client) {
    for (unsigned i = 0; i < TASKS; i++) {
        struct task *it = &task[i];
        if (!it->is_used || it->client != client) continue;
        it->client = -1;
        it->is_answered = it->is_sent = true;
        free_task(it);
    }
}

static void turn(void) {
    struct pollfd polled[2 + CLIENTS + 1] = {{.fd = labels_file(), .events = POLLIN}};
    drivers_poll(polled + 1);
    clients_poll(polled + 2);
    poll(polled, 2 + CLIENTS + 1, TURN);
    drivers_turn(polled + 1);
    if (polled[0].revents) labels_hear();
    drivers_look();
    drivers_move();
    clients_turn(polled + 2);
    send_again(clock_now() - SEND_AGAIN * millisecond);
    drivers_write();
    clients_write();
}

int main(int count, char **words) {
    static const struct serving serving = {.done = done, .is_set_up = is_set_up, .received = received};
    static const struct answering answering = {has_room, take, answer, sent, drop};
    if (count != 2) return 2;
    driver = (struct driver){.label = words[1], .unit = PORT};
    drivers_open(&serving, &driver, 1);
    if (!table_open(DS_TABLE_NETWORK, words[1]) || !table_assign(PORT, DS_RS_NETWORK, words[1])) return 1;
    clients_open(&answering);
    labels_open(words[1]);
    for (;;) turn();
}
