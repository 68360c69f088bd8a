/* What crosses the wire: a request for a chunk of a file, or the chunk. The wire is a folder with two sockets, `near` and `far`. As on any
 * wire, datagrams may be lost or spoiled, and nobody says so. */
#ifndef MACHINE_DATAGRAM_H
#define MACHINE_DATAGRAM_H

#include "frame.h"
#include <sys/socket.h>
#include <sys/stat.h>
#include <sys/un.h>
#include <unistd.h>

enum { CHUNK = 1024 };

/* The sum is that of all that follows it. A request has no data. */
struct datagram { uint64_t sum, chunk; uint32_t is_request, length; uint8_t data[CHUNK]; };

static inline size_t datagram_size(const struct datagram *it) { return offsetof(struct datagram, data) + it->length; }

static inline uint64_t datagram_sum(const struct datagram *it) {
    return sum_of(it->is_request, (const uint8_t *)&it->chunk, datagram_size(it) - offsetof(struct datagram, chunk));
}

static inline bool datagram_is_right(const struct datagram *it, ptrdiff_t got) {
    if (got < (ptrdiff_t)offsetof(struct datagram, data) || it->length > CHUNK) return false;
    return (size_t)got == datagram_size(it) && it->sum == datagram_sum(it);
}

/* Sends a datagram to the other end of the wire in the current folder. Returns whether the wire took it. */
static inline bool wire_send(int wire, const char *end, const void *datagram, size_t length) {
    struct sockaddr_un address = {.sun_family = AF_UNIX};
    strcpy(address.sun_path, end);
    return sendto(wire, datagram, length, MSG_DONTWAIT | MSG_NOSIGNAL, (struct sockaddr *)&address, sizeof address) == (ssize_t)length;
}

/* Opens an end of a wire, which becomes the current folder, so that no right to what is above it is needed. Returns -1 if it can't. */
static inline int wire_open(const char *wire, const char *end) {
    struct sockaddr_un address = {.sun_family = AF_UNIX};
    int it = chdir(wire) ? -1 : socket(AF_UNIX, SOCK_DGRAM | SOCK_CLOEXEC, 0);
    strcpy(address.sun_path, end);
    if (it < 0) return -1;
    unlink(end);
    if (!bind(it, (struct sockaddr *)&address, sizeof address) && !chmod(end, 0666)) return it;
    close(it);
    return -1;
}

#endif
