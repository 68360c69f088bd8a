/* Bytes that grow, and how the front of bytes is read. A text begins with zeros and ends with text_free. */
#ifndef SERVE_TEXT_H
#define SERVE_TEXT_H

#include <stdbool.h>
#include <stddef.h>

struct text { char *bytes; size_t length, room; };

/* Makes room for more bytes after the text. These return false where memory runs out; the text is unchanged then. */
bool text_room(struct text *text, size_t more);
bool text_put(struct text *text, const void *bytes, size_t length);
bool text_print(struct text *text, const char *format, ...);
/* Moves all bytes of another text to the end of this one. */
bool text_move(struct text *text, struct text *from);
/* Drops bytes from the front. A text that becomes empty gives large memory back. */
void text_drop(struct text *text, size_t length);
void text_free(struct text *text);

/* Returns the length of the first `lines` lines, or of all bytes if there are fewer lines. */
size_t first_lines(const char *bytes, size_t length, unsigned lines);
/* Whether bytes begin with a text. */
bool text_begins(const char *bytes, size_t length, const char *front);
/* Reads the decimal digits at the front. Returns how many there are; 0 if there are none, or the number is above
 * `most`. */
size_t read_digits(const char *bytes, size_t length, unsigned long long most, unsigned long long *number);

#endif
