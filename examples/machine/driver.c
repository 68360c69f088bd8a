/* What all drivers do alike. See driver.h. */
#include "driver.h"
#include "line.h"
#include <errno.h>
#include <poll.h>
#include <stdlib.h>
#include <sys/socket.h>
#include <unistd.h>

enum { SERVERS = 4, BATCH = 64, LINE = 0, LISTENER = 1, DEVICE = 2, FIRST = 3, ALL = FIRST + SERVERS };

static struct line rs;
static struct pollfd polled[ALL];

void driver_must(bool is_right) {
    if (!is_right) exit(1);
}

static bool tell(int server, const struct frame *frame) {
    size_t length = sizeof frame->head + frame->head.length;
    driver_must(length <= sizeof *frame);
    return send(server, frame, length, MSG_NOSIGNAL) == (ssize_t)length;
}

static void hang_up(struct pollfd *server) {
    close(server->fd);
    server->fd = -1;
}

void driver_tell(const struct frame *frame) {
    for (int i = FIRST; i < ALL; i++)
        if (polled[i].fd >= 0 && !tell(polled[i].fd, frame)) hang_up(&polled[i]);
}

/* Answers some requests of a server, so that the others and dsrs have their turn. */
static void answer(const struct driving *driving, struct pollfd *server) {
    static struct frame frame;
    for (int i = 0; i < BATCH; i++) {
        ssize_t got = recv(server->fd, &frame, sizeof frame, MSG_DONTWAIT);
        if (got < 0 && (errno == EAGAIN || errno == EINTR)) return;
        if (got <= 0 || !frame_is_whole(&frame, got)) break;
        struct head asked = frame.head;
        driving->serve(&frame);
        driver_must(frame.head.id == asked.id && frame.head.place == asked.place && frame.head.verb >= DONE);
        if (!tell(server->fd, &frame)) break;
        if (i == BATCH - 1) return;
    }
    hang_up(server);
}

static void hear_dsrs(void) {
    if (!line_read(&rs)) exit(0);
    for (char *said; (said = line_next(&rs));)
        if (!strcmp(said, "ping")) driver_must(line_say(&rs, "beat"));
}

static void admit(void) {
    for (int i = FIRST; i < ALL; i++) {
        if (polled[i].fd >= 0) continue;
        polled[i].fd = accept4(polled[LISTENER].fd, NULL, NULL, 0);
        return;
    }
}

_Noreturn void driver_run(const struct driving *driving) {
    const char *listener = getenv("DS_LISTEN");
    line_open(&rs);
    driver_must(listener);
    for (int i = 0; i < ALL; i++) polled[i] = (struct pollfd){.fd = -1, .events = POLLIN};
    polled[LINE].fd = rs.file;
    polled[LISTENER].fd = atoi(listener);
    polled[DEVICE].fd = driving->device;
    for (;;) {
        driver_must(poll(polled, ALL, -1) > 0 || errno == EINTR);
        if (polled[LINE].revents) hear_dsrs();
        for (int i = FIRST; i < ALL; i++)
            if (polled[i].fd >= 0 && polled[i].revents) answer(driving, &polled[i]);
        if (polled[DEVICE].revents) driving->hear();
        if (polled[LISTENER].revents) admit();
    }
}
