/* The lines of a client: how their words are read, and how the store alone carries them out and answers them, as dsctl
 * does. */
#ifndef SERVE_LINES_H
#define SERVE_LINES_H

#include "ds.h"
#include "wire.h"

/* A line without the newline, and the rest after the first word and a space. */
struct request { const char *line, *rest; size_t length, left; };

struct request request_of(const char *line, size_t length);
/* Whether the first word is this one, or one of these, of which NULL is the end. */
bool request_is(const struct request *it, const char *word);
bool request_is_any(const struct request *it, const char *const words[]);
/* Takes the next part, up to a space, off the rest. Returns the length. */
size_t request_take(struct request *it, const char **part);
/* Reads a number without leading zeros, which is all of the bytes, or returns -1. */
long read_plain(const char *bytes, size_t length, long most);
/* Takes a subscription off the rest, or returns -1. */
long request_sub(struct request *it);
/* Reads `GENERATION/SLOT`. */
bool read_endpoint(const char *bytes, size_t length, uint32_t *generation, uint16_t *slot);

/* LINES_BAD: no command's line, place says from which byte on; LINES_NOREQUEST: a script's line that asks nothing of
 * one store; nothing changed. LINES_NOROOM: out of memory for the answer's text; the command was carried out, or
 * refused for the same reason. */
enum lines_word { LINES_ANSWERED, LINES_BAD, LINES_NOREQUEST, LINES_NOROOM };

/* More on a line that was answered. place: the byte at which a bad line can't be read. holds: the answer says that a
 * change is held, so the stream has to have that change first. was_held: the change was held before this line. owed: the bits of subscriptions that are owed a notice. */
struct lines_said { uint64_t place; bool holds, was_held; uint8_t owed[16]; };

/* Carries out the command of a line, given without its newline, and appends the answer to the text, which is unchanged
 * unless the result is LINES_ANSWERED. Where text is NULL, the answer is left out. */
enum lines_word lines_answer(struct ds_handle *store, const char *line, size_t length, struct text *text,
                             struct lines_said *said);
/* Puts the lines of the last answer after the text. Returns LINES_ANSWERED, or LINES_NOROOM, and then the text is
 * unchanged. */
enum lines_word lines_fetch(struct ds_handle *store, struct text *text);
/* Whether a line's answer has no more than a few lines, as that of each change has. */
bool lines_is_short(const char *line, size_t length);

/* These put an answer, and return false where memory runs out. */

/* As lines_answer, and `badline` or `norequest` for a line that isn't carried out; a line of NULL is one that was too
 * long to be kept. */
bool lines_put(struct ds_handle *store, const struct wire *wire, const char *line, size_t length, struct text *to, struct lines_said *said);
bool lines_put_bad(const struct wire *wire, uint64_t place, struct text *to);
bool lines_put_refused(const char *word, struct text *to);

#endif
