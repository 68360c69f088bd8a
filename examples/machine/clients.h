/* The clients of a server: who is connected, what they ask, and the answers that wait for them. */
#ifndef MACHINE_CLIENTS_H
#define MACHINE_CLIENTS_H

#include "frame.h"
#include <poll.h>

enum { CLIENTS = 8 };

/* What the server does with requests, and with answers, each of which has a number. */
struct answering {
    bool (*has_room)(void);
    bool (*take)(int client, const struct frame *frame, ptrdiff_t got); /* returns false for what isn't a request */
    struct frame (*answer)(unsigned number);
    void (*sent)(unsigned number);
    void (*drop)(int client);
};

/* Clients connect at the endpoint's socket. It exits if dsrs didn't start the process. */
void clients_open(const struct answering *answering);
/* Sends an answer when the client takes it. */
void clients_answer(int client, unsigned number);
/* One more than there are clients. */
void clients_poll(struct pollfd *polled);
void clients_turn(const struct pollfd *polled);
void clients_write(void);

#endif
