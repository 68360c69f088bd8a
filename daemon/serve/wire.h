/* One end of a connection that speaks lines: the bytes received, the bytes to be sent, and the subscriptions of the other end. */
#ifndef SERVE_WIRE_H
#define SERVE_WIRE_H

#include "text.h"
#include <stdint.h>

enum {
    WIRE_LINE = 4096,      /* bytes of a line */
    WIRE_READS = 1 << 16,  /* bytes that are read at a time */
    WIRE_WAITS = 1 << 20,  /* bytes that wait to be sent, before more is answered */
    WIRE_SUBS = 128        /* numbers of subscriptions */
};

/* Begins with zeros, and ends with wire_free. */
struct wire {
    bool ended;                   /* no more comes */
    bool too_long;                /* the line that is being read */
    uint64_t lines;               /* how many have come */
    struct text in, out;
    uint8_t owns[16];             /* the other end's own subscriptions, as long as the connection lasts */
    uint8_t listens[16], due[16]; /* of these, the ones listened to, and the ones whose notice is due */
};

/* Reads the bytes that have arrived. Returns false if memory runs out. */
bool wire_read(struct wire *wire, int socket);
/* Returns how many bytes the next whole line from a byte on has, and its length without the newline; 0 where there is
 * none. Bytes without a newline aren't a line, even after the end of the input. */
size_t wire_line(const struct wire *wire, size_t from, size_t *length);
/* Whether a whole line has come. */
bool wire_has_line(const struct wire *wire);
/* Drops the lines that are done. Of a line that is too long already, only that is kept. */
void wire_drop_lines(struct wire *wire, size_t done);
/* Owes the other end the notices of a mask, as far as it listens. Returns whether there are any. */
bool wire_owe(struct wire *wire, const uint8_t owed[16]);
/* Puts the notices that are due, while fewer bytes than these wait. A notice says no more than that there is something,
 * so one of each subscription is enough for an end that doesn't read. */
void wire_put_notices(struct wire *wire, size_t most);
void wire_free(struct wire *wire);

/* A set of subscriptions. */
bool subs_have(const uint8_t subs[16], long sub);
void subs_add(uint8_t subs[16], long sub);

#endif
