/* What the machine's applications do alike. See asking.h. */
#include "asking.h"
#include "clock.h"
#include <errno.h>
#include <inttypes.h>
#include <poll.h>
#include <stdio.h>
#include <stdlib.h>
#include <sys/socket.h>
#include <sys/un.h>
#include <unistd.h>

enum { PATIENCE = 60000, PAUSE = 20, SHOW_EACH = 20 /* milliseconds */ };

static int connected(const char *path, int type) {
    struct sockaddr_un address = {.sun_family = AF_UNIX};
    int it = socket(AF_UNIX, type | SOCK_CLOEXEC, 0);
    snprintf(address.sun_path, sizeof address.sun_path, "%s", path);
    if (!connect(it, (struct sockaddr *)&address, sizeof address)) return it;
    close(it);
    return -1;
}

/* Asks dsrs where a label is, and connects to that endpoint. Returns -1 if it isn't there. */
static int find(const char *path, const char *label) {
    char said[100] = "", where[200];
    unsigned generation, slot;
    int dsrs = connected(path, SOCK_STREAM);
    if (dsrs < 0) return -1;
    dprintf(dsrs, "retrieve %s label\n", label);
    ssize_t got = read(dsrs, said, sizeof said - 1);
    close(dsrs);
    if (got <= 0 || sscanf(said, "found %u/%u", &generation, &slot) != 2) return -1;
    snprintf(where, sizeof where, "%s.d/%u.%u", path, generation, slot);
    return connected(where, SOCK_SEQPACKET);
}

void asking_open(struct asking *asking, const char *socket, const char *label, unsigned window) {
    *asking = (struct asking){.server = -1, .window = window ? window < WINDOW ? window : WINDOW : 1};
    for (int tries = 0; asking->server < 0 && tries < PATIENCE / PAUSE; tries++) {
        asking->server = find(socket, label);
        if (asking->server < 0) usleep(PAUSE * 1000);
    }
    if (asking->server >= 0) return;
    fprintf(stderr, "%s isn't there\n", label);
    exit(2);
}

bool asking_has_room(const struct asking *asking) { return !asking->waits[(asking->asked + 1) % asking->window].verb; }

bool asking_send(struct asking *asking, uint64_t place, enum verb verb, const uint8_t *data, uint32_t length) {
    struct frame frame = {.head = {asking->asked + 1, place, verb, length}};
    if (!asking_has_room(asking)) return false;
    if (length) memcpy(frame.data, data, length);
    if (send(asking->server, &frame, sizeof frame.head + length, MSG_NOSIGNAL) < 0) exit(asking_report(asking) | 2);
    asking->asked++;
    asking->waits[frame.head.id % asking->window] = frame.head;
    return true;
}

/* So that a reader of the output can tell the rate at any time. */
static void show(const struct asking *asking) {
    static uint64_t shown;
    uint64_t now = clock_now();
    if (now - shown < SHOW_EACH * millisecond) return;
    shown = now;
    printf("at %" PRIu64 " %" PRIu64 "\n", now, asking->answered);
    fflush(stdout);
}

struct head asking_take(struct asking *asking, struct frame *answer) {
    struct pollfd polled = {.fd = asking->server, .events = POLLIN};
    for (;;) {
        if (poll(&polled, 1, PATIENCE) <= 0) exit(asking_report(asking) | 2);
        ssize_t got = recv(asking->server, answer, sizeof *answer, 0);
        if (got < 0 && errno == EINTR) continue;
        if (!frame_is_whole(answer, got)) exit(asking_report(asking) | 2);
        struct head *waits = &asking->waits[answer->head.id % asking->window], asked = *waits;
        if (!asked.verb || asked.id != answer->head.id || asked.place != answer->head.place) {
            asking->twice++;
            continue;
        }
        waits->verb = 0;
        asking->answered++;
        show(asking);
        return asked;
    }
}

bool asking_is_idle(const struct asking *asking) { return asking->asked == asking->answered; }

int asking_report(const struct asking *it) {
    printf("done asked %" PRIu64 " answered %" PRIu64 " refused %" PRIu64 " wrong %" PRIu64 " twice %" PRIu64 "\n", it->asked, it->answered,
           it->refused, it->wrong, it->twice);
    return it->asked != it->answered || it->wrong || it->twice;
}
