/* A service's line to dsrs, its descriptor DS_FD: lines go out, and answers, pings and notices come in. */
#ifndef MACHINE_LINE_H
#define MACHINE_LINE_H

#include <stdbool.h>
#include <stddef.h>

struct line { int file; size_t length; char in[1 << 15]; };

void line_open(struct line *line);
/* Sends a line, which is written without its newline. */
bool line_say(const struct line *line, const char *format, ...) __attribute__((format(printf, 2, 3)));
/* Reads what there is. Returns false once dsrs has ended. */
bool line_read(struct line *line);
/* Returns the next whole answer, without its empty line, or NULL. The text is valid until the next call. */
char *line_next(struct line *line);

#endif
