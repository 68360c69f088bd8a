/* A client's session, line by line: the client's rights, and the lines that are dsfleet's own. Used by clients.c alone. */
#ifndef DSFLEET_SESSION_H
#define DSFLEET_SESSION_H

#include "clients.h"

/* Whether a line's answer has no more than a few lines. */
bool session_is_short(const char *line, size_t length);
/* Appends the answer to the client's held bytes, and sets `holds` if they wait for the stream. Returns false
 * if memory runs out. */
bool session_answer(struct clients *clients, struct client *client, const char *line, size_t length, bool *holds);
/* Carries out a line of a client that hung up. Only lines with short answers may be changes; nobody reads the others. */
void session_carry_out(struct clients *clients, struct client *client, const char *line, size_t length);

#endif
