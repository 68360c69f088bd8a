/* The lengths that a server's answers begin with, looked at before a parser makes room for them. Used within the
 * library. */
#ifndef DS_FLEET_FRAMES_H
#define DS_FLEET_FRAMES_H

#include <stdbool.h>
#include <stddef.h>

enum { FRAMES_HEAD = 24 /* bytes of a line that are kept: a type, a length */ };

/* The place in an answer at which the received bytes end. Begins with zeros. */
struct frames {
    char head[FRAMES_HEAD]; /* the head of the line that is being read */
    size_t length;          /* bytes of that line so far */
    size_t left;            /* bytes of a text that are missing */
};

/* Looks at the next bytes. Returns false if they have a length that no question asked for, or aren't an answer. */
bool frames_take(struct frames *frames, const char *bytes, size_t length);

#endif
