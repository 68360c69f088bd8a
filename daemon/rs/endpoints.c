/* The sockets of an instance. See endpoints.h. */
#include "endpoints.h"
#include <errno.h>
#include <stdio.h>
#include <sys/socket.h>
#include <sys/un.h>
#include <unistd.h>

enum { BACKLOG = 64, PATH = sizeof((struct sockaddr_un *)0)->sun_path };

static void name_endpoint(const struct instances *all, const struct instance *it, char path[PATH]) {
    snprintf(path, PATH, "%s/%s", all->endpoints, it->name);
}

static bool open_listener(const struct instances *all, struct instance *it) {
    struct sockaddr_un address = {.sun_family = AF_UNIX};
    name_endpoint(all, it, address.sun_path);
    it->listener = socket(AF_UNIX, SOCK_SEQPACKET | SOCK_CLOEXEC, 0);
    return it->listener >= 0 && !bind(it->listener, (struct sockaddr *)&address, sizeof address) && !listen(it->listener, BACKLOG);
}

bool endpoints_open(const struct instances *all, struct instance *it) {
    int pair[2], error;
    if (socketpair(AF_UNIX, SOCK_STREAM | SOCK_CLOEXEC, 0, pair)) return false;
    it->socket = pair[0];
    it->theirs = pair[1];
    if (open_listener(all, it)) return true;
    error = errno;
    endpoints_close(all, it);
    close(it->socket);
    close(it->theirs);
    it->socket = it->theirs = -1;
    errno = error;
    return false;
}

void endpoints_close(const struct instances *all, struct instance *it) {
    char path[PATH];
    if (it->listener < 0) return;
    name_endpoint(all, it, path);
    unlink(path);
    close(it->listener);
    it->listener = -1;
}
