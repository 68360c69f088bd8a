/* One end of a connection that speaks lines. See wire.h. */
#include "wire.h"
#include <errno.h>
#include <string.h>
#include <sys/socket.h>

bool subs_have(const uint8_t subs[16], long sub) { return subs[sub / 8] >> sub % 8 & 1; }

void subs_add(uint8_t subs[16], long sub) { subs[sub / 8] |= (uint8_t)(1 << sub % 8); }

bool wire_read(struct wire *wire, int socket) {
    char some[WIRE_READS];
    ssize_t got = recv(socket, some, sizeof some, MSG_DONTWAIT);
    if (got > 0) return text_put(&wire->in, some, (size_t)got);
    wire->ended |= got == 0 || (errno != EAGAIN && errno != EINTR);
    return true;
}

size_t wire_line(const struct wire *wire, size_t from, size_t *length) {
    size_t left = wire->in.length - from;
    const char *line = wire->in.bytes + from, *newline = left ? memchr(line, '\n', left) : NULL;
    *length = newline ? (size_t)(newline - line) : left;
    return newline ? *length + 1 : 0;
}

bool wire_has_line(const struct wire *wire) { return wire->in.length && memchr(wire->in.bytes, '\n', wire->in.length); }

void wire_drop_lines(struct wire *wire, size_t done) {
    text_drop(&wire->in, done);
    if (wire->in.length <= WIRE_LINE || wire_has_line(wire)) return;
    wire->too_long = true;
    text_drop(&wire->in, wire->in.length - 1);
}

bool wire_owe(struct wire *wire, const uint8_t owed[16]) {
    uint8_t any = 0;
    for (size_t byte = 0; byte < sizeof wire->due; byte++) {
        any |= owed[byte] & wire->listens[byte];
        wire->due[byte] |= owed[byte] & wire->listens[byte];
    }
    return any;
}

void wire_put_notices(struct wire *wire, size_t most) {
    for (int sub = 0; sub < WIRE_SUBS && wire->out.length < most; sub++) {
        bool is_put = subs_have(wire->due, sub) && text_print(&wire->out, "notice %d\n\n", sub);
        if (is_put) wire->due[sub / 8] &= (uint8_t)~(1 << sub % 8);
    }
}

void wire_free(struct wire *wire) {
    text_free(&wire->in);
    text_free(&wire->out);
}
