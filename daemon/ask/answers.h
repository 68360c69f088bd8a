/* Answers of a dsrs or a dsfleet: lines, of which an empty one is the end. Used by dsask.c alone. */
#ifndef DSASK_ANSWERS_H
#define DSASK_ANSWERS_H

#include "text.h"
#include <stdbool.h>
#include <stddef.h>

/* Whether an answer is a notice, which answers no line. */
bool answer_is_notice(const char *answer, size_t length);

/* How answers are printed. */
struct printing {
    bool as_table; /* they answer `status` */
    bool refused;  /* one of them was a refusal, or a line that couldn't be read */
};

/* These return false, with errno, if standard output can't be written or memory runs out. */

/* Prints an answer without the empty line. */
bool printing_put(struct printing *printing, const char *answer, size_t length);

/* A watched pattern, and its subscription: the first from `sub` to `last_sub` that may be used. */
struct watching { const char *pattern; int kinds, sub, last_sub; bool refused; };

/* Puts the lines to begin with. */
bool watching_begin(struct watching *watching, struct text *to);
/* Takes an answer: prints the items, and puts the lines to continue with. After a refusal there are none, and the result
 * is false with `refused` set and errno EPIPE, since standard error has the reason already. */
bool watching_take(struct watching *watching, const char *answer, size_t length, struct text *to);

#endif
