/* Messages of services by the protocol of sd_notify. See notify_socket.h. */
#include "notify_socket.h"
#include <ctype.h>
#include <stdio.h>
#include <string.h>
#include <sys/epoll.h>
#include <sys/socket.h>
#include <sys/stat.h>
#include <sys/un.h>

enum { MESSAGE = 4096, AT_ONCE = 64 /* messages of one turn */, ALL_MAY_WRITE = 0666 };

/* An instance may have another user, so anybody may write; who counts is judged by the number of the process. */
bool notify_socket_open(struct watch *notify_socket, int epoll, const char *folder) {
    struct sockaddr_un address = {.sun_family = AF_UNIX};
    int file = socket(AF_UNIX, SOCK_DGRAM | SOCK_NONBLOCK | SOCK_CLOEXEC, 0), on = 1;
    if (!watch_open(notify_socket, epoll, file, EPOLLIN)) return false;
    snprintf(address.sun_path, sizeof address.sun_path, "%s/notify", folder);
    return !bind(file, (struct sockaddr *)&address, sizeof address) && !chmod(address.sun_path, ALL_MAY_WRITE)
           && !setsockopt(file, SOL_SOCKET, SO_PASSCRED, &on, sizeof on);
}

static void keep_status(struct service *service, const char *text) {
    snprintf(service->status, sizeof service->status, "%s", text);
    for (char *byte = service->status; *byte; byte++)
        if (!isprint((unsigned char)*byte)) *byte = '?';
}

static void hear(struct rs *rs, struct instance *from, const char *line) {
    bool is_ready = !strcmp(line, "READY=1");
    if (is_ready && !from->is_ready) events_tell(&rs->events, LOG_INFO, "ready: %s %s", from->service->label, from->endpoint);
    from->is_ready |= is_ready;
    if (!strncmp(line, "STATUS=", 7)) keep_status(from->service, line + 7);
    if (!is_ready && strcmp(line, "WATCHDOG=1")) return;
    struct ds_rs_event beat = rs_of_instance(DS_RS_BEAT, from->generation, from->slot, CAUSE_NONE);
    rs_event(rs, &beat, NULL);
}

/* Returns the process that sent a message, or 0. */
static pid_t sender_of(struct msghdr *message) {
    struct ucred who = {0};
    const struct cmsghdr *it = CMSG_FIRSTHDR(message);
    if (it && it->cmsg_level == SOL_SOCKET && it->cmsg_type == SCM_CREDENTIALS) memcpy(&who, CMSG_DATA(it), sizeof who);
    return who.pid;
}

/* There is room for the number alone, so the kernel drops descriptors that come with a message. */
void notify_socket_read(struct watch *notify_socket, struct rs *rs) {
    _Alignas(struct cmsghdr) char control[CMSG_SPACE(sizeof(struct ucred))];
    char text[MESSAGE];
    struct iovec part = {text, sizeof text - 1};
    notify_socket->ready = 0;
    for (int left = AT_ONCE; left; left--) {
        struct msghdr message = {.msg_iov = &part, .msg_iovlen = 1, .msg_control = control, .msg_controllen = sizeof control};
        ssize_t length = recvmsg(notify_socket->file, &message, MSG_DONTWAIT | MSG_CMSG_CLOEXEC);
        if (length < 0) return;
        text[length] = '\0';
        struct instance *from = instances_by_pid(&rs->instances, sender_of(&message));
        char *rest = text;
        for (char *line; from && from->is_up && (line = strsep(&rest, "\n"));) hear(rs, from, line);
    }
}
