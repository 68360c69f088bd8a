/* The clients of a server. See clients.h. */
#include "clients.h"
#include "ring.h"
#include <errno.h>
#include <stdlib.h>
#include <sys/socket.h>
#include <unistd.h>

enum { BATCH = 64 };

struct client { int socket; struct ring out; };

static const struct answering *answering;
static struct client client[CLIENTS];
static int listener;

void clients_open(const struct answering *how) {
    const char *file = getenv("DS_LISTEN");
    if (!file) exit(1);
    answering = how;
    listener = atoi(file);
    for (int i = 0; i < CLIENTS; i++) client[i].socket = -1;
}

void clients_answer(int to, unsigned number) { ring_put(&client[to].out, number); }

static void hang_up(int at) {
    close(client[at].socket);
    client[at].socket = -1;
    ring_clear(&client[at].out);
    answering->drop(at);
}

static void hear(int at) {
    static struct frame frame;
    for (int i = 0; i < BATCH && answering->has_room(); i++) {
        ssize_t got = recv(client[at].socket, &frame, sizeof frame, MSG_DONTWAIT);
        if (got < 0 && (errno == EAGAIN || errno == EINTR)) return;
        if (got > 0 && answering->take(at, &frame, got)) continue;
        hang_up(at);
        return;
    }
}

static void write_to(int at) {
    struct client *it = &client[at];
    while (it->socket >= 0 && !ring_is_empty(&it->out)) {
        unsigned number = (unsigned)ring_first(&it->out);
        struct frame frame = answering->answer(number);
        ssize_t put = send(it->socket, &frame, sizeof frame.head + frame.head.length, MSG_DONTWAIT | MSG_NOSIGNAL);
        if (put < 0 && (errno == EAGAIN || errno == EINTR)) return;
        if (put < 0) {
            hang_up(at);
            return;
        }
        ring_drop(&it->out);
        answering->sent(number);
    }
}

static void admit(void) {
    for (int i = 0; i < CLIENTS; i++) {
        if (client[i].socket >= 0) continue;
        client[i].socket = accept4(listener, NULL, NULL, SOCK_CLOEXEC);
        return;
    }
}

/* A client isn't read while the server can't take its request. */
void clients_poll(struct pollfd *polled) {
    short in = answering->has_room() ? POLLIN : 0;
    for (int i = 0; i < CLIENTS; i++)
        polled[i] = (struct pollfd){.fd = client[i].socket, .events = (short)(in | (ring_is_empty(&client[i].out) ? 0 : POLLOUT))};
    polled[CLIENTS] = (struct pollfd){.fd = listener, .events = POLLIN};
}

void clients_turn(const struct pollfd *polled) {
    for (int i = 0; i < CLIENTS; i++)
        if (polled[i].revents & ~POLLOUT && polled[i].fd == client[i].socket) hear(i);
    if (polled[CLIENTS].revents) admit();
}

void clients_write(void) {
    for (int i = 0; i < CLIENTS; i++) write_to(i);
}
