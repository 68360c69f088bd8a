/* Descriptors that are sent to a peer. See ancillary.h. */
#include "ancillary.h"
#include <errno.h>
#include <string.h>
#include <sys/socket.h>
#include <unistd.h>

void ancillary_take(struct ancillary *ancillary, size_t at, int file) {
    ancillary->message[ancillary->count].at = at;
    ancillary->message[ancillary->count++].file = file;
}

/* Drops the first descriptor, and moves the others by the bytes that were sent. */
static void drop_first(struct ancillary *ancillary) {
    close(ancillary->message[0].file);
    memmove(ancillary->message, ancillary->message + 1, --ancillary->count * sizeof *ancillary->message);
}

/* Sends bytes, the first of them with a descriptor unless it is -1. */
static ssize_t send_bytes(int socket, char *bytes, size_t length, int file) {
    _Alignas(struct cmsghdr) char control[CMSG_SPACE(sizeof file)] = {0};
    struct iovec part = {bytes, length};
    struct msghdr message = {.msg_iov = &part, .msg_iovlen = 1};
    if (file >= 0) {
        message.msg_control = control;
        message.msg_controllen = sizeof control;
        struct cmsghdr *head = CMSG_FIRSTHDR(&message);
        *head = (struct cmsghdr){.cmsg_len = CMSG_LEN(sizeof file), .cmsg_level = SOL_SOCKET, .cmsg_type = SCM_RIGHTS};
        memcpy(CMSG_DATA(head), &file, sizeof file);
    }
    return sendmsg(socket, &message, MSG_DONTWAIT | MSG_NOSIGNAL);
}

/* How many bytes are sent at once: those before the next descriptor, or the lines of the next descriptor alone, up to an empty line. So a
 * descriptor always belongs to the last line that was received with it. */
static size_t piece_length(const struct ancillary *ancillary, const struct text *text) {
    if (!ancillary->count) return text->length;
    if (ancillary->message[0].at) return ancillary->message[0].at;
    const char *end = memmem(text->bytes, text->length, "\n\n", 2);
    return end ? (size_t)(end - text->bytes) + 2 : text->length;
}

bool ancillary_send(struct ancillary *ancillary, struct text *text, int socket) {
    bool has_file = ancillary->count && !ancillary->message[0].at;
    size_t length = piece_length(ancillary, text);
    ssize_t put = send_bytes(socket, text->bytes, length, has_file ? ancillary->message[0].file : -1);
    if (put < 0 && has_file && errno == ETOOMANYREFS) put = send_bytes(socket, text->bytes, length, -1);
    if (put < 0) return false;
    if (has_file) drop_first(ancillary);
    for (size_t i = 0; i < ancillary->count; i++) ancillary->message[i].at -= (size_t)put;
    text_drop(text, (size_t)put);
    return true;
}

void ancillary_drop(struct ancillary *ancillary) {
    while (ancillary->count) drop_first(ancillary);
}
