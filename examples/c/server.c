/* A server with a store of its own: clients connect to a UNIX socket and send lines of scripts, as `retrieve eth0 label`.
 *
 * An empty line ends each answer. A client that subscribed gets `notice SUB` when it has something to check. The store is
 * gone when the server ends. Each client may send each line, so the socket's folder decides who may.
 *
 *     server SOCKET */
#define _POSIX_C_SOURCE 200809L
#include "ds.h"
#include <poll.h>
#include <stdio.h>
#include <stdlib.h>
#include <string.h>
#include <sys/socket.h>
#include <sys/un.h>
#include <unistd.h>

enum { MOST_CLIENTS = 64, LINE = 4096, SUBS = 128, JOURNAL = 256 };

struct client {
    int at;                   /* its descriptor, or -1 */
    size_t used;              /* bytes of the line that isn't whole yet */
    char line[LINE];
    unsigned char subs[SUBS]; /* 1: it subscribed under this number */
};

static struct ds_handle store = DS_CLOSED;
static struct client clients[MOST_CLIENTS];

static void give_up(const char *why) {
    perror(why);
    exit(1);
}

static void hang_up(struct client *client) {
    close(client->at);
    memset(client, 0, sizeof *client);
    client->at = -1;
}

/* Sends bytes to a client, or hangs up if it doesn't read them: one client never delays the others. */
static void send_to(struct client *client, const char *bytes, size_t length) {
    if (client->at >= 0 && send(client->at, bytes, length, MSG_DONTWAIT | MSG_NOSIGNAL) != (ssize_t)length) {
        hang_up(client);
    }
}

/* Sends the text of the last answer, and the empty line after it. */
static void send_text(struct client *client) {
    char room[LINE];
    struct ds_given given = {0};
    size_t first = 0;
    do {
        if (ds_text(&store, first, room, sizeof room, &given) != 0 || given.stop == DS_WANTING) {
            hang_up(client);
            return;
        }
        send_to(client, room, given.length);
        first += given.length;
    } while (given.stop == DS_TOOSMALL);
    send_to(client, "\n", 1);
}

/* Sends a notice to each client that subscribed under a number that the answer owes one. */
static void send_notices(const struct ds_answer *answer) {
    char notice[32];
    for (unsigned sub = 0; sub < SUBS; sub++) {
        for (struct client *client = clients; ds_is_owed(answer, sub) && client < clients + MOST_CLIENTS; client++) {
            if (client->subs[sub]) {
                send_to(client, notice, (size_t)sprintf(notice, "notice %u\n\n", sub));
            }
        }
    }
}

/* Carries out one line, whose newline is at its end, and answers it. */
static void carry_out(struct client *client, char *line, size_t length) {
    char said[64];
    struct ds_answer answer;
    unsigned sub;
    if (ds_call_line(&store, line, length, &answer) != 0) {
        return; /* the store is closed at the end of main alone */
    }
    if (answer.word == DS_BADLINE) {
        send_to(client, said, (size_t)sprintf(said, "badline 1 %lu\n\n", (unsigned long)answer.count));
    } else if (answer.word == DS_NOREQUEST) {
        send_to(client, "norequest\n\n", 11);
    } else {
        send_text(client);
    }
    line[length - 1] = 0;
    if (answer.word == DS_SUBSCRIBED && sscanf(line, "subscribe %u", &sub) == 1) {
        client->subs[sub] = 1;
    }
    send_notices(&answer);
}

/* Reads what a client sent, and carries out its whole lines. */
static void serve(struct client *client) {
    ssize_t came = read(client->at, client->line + client->used, LINE - client->used);
    if (came <= 0) {
        hang_up(client);
        return;
    }
    client->used += (size_t)came;
    char *end;
    while (client->at >= 0 && (end = memchr(client->line, '\n', client->used)) != NULL) {
        size_t length = (size_t)(end - client->line) + 1;
        char line[LINE];
        memcpy(line, client->line, length);
        client->used -= length;
        memmove(client->line, end + 1, client->used);
        carry_out(client, line, length);
    }
    if (client->used == LINE) {
        hang_up(client); /* a line that is too long */
    }
}

/* Takes a new client, or none if all places are taken. */
static void welcome(int listener) {
    int at = accept(listener, NULL, NULL);
    for (struct client *client = clients; at >= 0 && client < clients + MOST_CLIENTS; client++) {
        if (client->at < 0) {
            client->at = at;
            return;
        }
    }
    if (at >= 0) {
        close(at);
    }
}

static int listen_at(const char *path) {
    struct sockaddr_un address = {.sun_family = AF_UNIX};
    int listener = socket(AF_UNIX, SOCK_STREAM, 0);
    snprintf(address.sun_path, sizeof address.sun_path, "%s", path);
    if (listener < 0 || bind(listener, (struct sockaddr *)&address, sizeof address) != 0 || listen(listener, MOST_CLIENTS) != 0) {
        give_up(path);
    }
    return listener;
}

int main(int count, char **words) {
    struct pollfd waits[MOST_CLIENTS + 1];
    if (count != 2) {
        fputs("usage: server SOCKET\n", stderr);
        return 2;
    }
    for (int at = 0; at < MOST_CLIENTS; at++) {
        clients[at].at = -1;
    }
    if (ds_open(&store, 1, 0, JOURNAL) != 0) {
        fputs("server: out of memory\n", stderr);
        return 1;
    }
    int listener = listen_at(words[1]);
    for (;;) {
        for (int at = 0; at < MOST_CLIENTS; at++) {
            waits[at] = (struct pollfd){.fd = clients[at].at, .events = POLLIN};
        }
        waits[MOST_CLIENTS] = (struct pollfd){.fd = listener, .events = POLLIN};
        if (poll(waits, MOST_CLIENTS + 1, -1) < 0) {
            give_up("poll");
        }
        for (int at = 0; at < MOST_CLIENTS; at++) {
            if (waits[at].revents != 0 && clients[at].at == waits[at].fd) {
                serve(&clients[at]);
            }
        }
        if (waits[MOST_CLIENTS].revents != 0) {
            welcome(listener);
        }
    }
}
