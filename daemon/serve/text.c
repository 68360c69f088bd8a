/* Bytes that grow. See text.h. */
#include "text.h"
#include <stdarg.h>
#include <stdio.h>
#include <stdlib.h>
#include <string.h>

enum {
    KEPT = 4096,  /* bytes of room that an empty text keeps */
    PRINTED = 512 /* bytes of one print at most, with the terminating zero */
};

bool text_room(struct text *text, size_t more) {
    if (text->room - text->length >= more) return true;
    size_t room = 2 * text->length + more;
    char *grown = realloc(text->bytes, room);
    if (!grown) return false;
    text->bytes = grown;
    text->room = room;
    return true;
}

bool text_put(struct text *text, const void *bytes, size_t length) {
    if (!text_room(text, length)) return false;
    if (length) memcpy(text->bytes + text->length, bytes, length);
    text->length += length;
    return true;
}

bool text_print(struct text *text, const char *format, ...) {
    char line[PRINTED];
    va_list given;
    va_start(given, format);
    int length = vsnprintf(line, sizeof line, format, given);
    va_end(given);
    return text_put(text, line, length < (int)sizeof line ? (size_t)length : sizeof line - 1);
}

void text_drop(struct text *text, size_t length) {
    text->length -= length;
    if (length && text->length) memmove(text->bytes, text->bytes + length, text->length);
    if (!text->length && text->room > KEPT) text_free(text);
}

bool text_move(struct text *text, struct text *from) {
    if (!text->length) {
        struct text empty = *text;
        *text = *from;
        *from = empty;
        return true;
    }
    if (!text_put(text, from->bytes, from->length)) return false;
    text_drop(from, from->length);
    return true;
}

void text_free(struct text *text) {
    free(text->bytes);
    *text = (struct text){0};
}

size_t first_lines(const char *bytes, size_t length, unsigned lines) {
    size_t end = 0;
    for (; lines && end < length; lines--) {
        const char *newline = memchr(bytes + end, '\n', length - end);
        end = newline ? (size_t)(newline - bytes) + 1 : length;
    }
    return end;
}

bool text_begins(const char *bytes, size_t length, const char *front) {
    return length >= strlen(front) && !memcmp(bytes, front, strlen(front));
}

size_t read_digits(const char *bytes, size_t length, unsigned long long most, unsigned long long *number) {
    size_t digits = 0;
    for (*number = 0; digits < length && bytes[digits] >= '0' && bytes[digits] <= '9'; digits++) {
        unsigned digit = (unsigned)(bytes[digits] - '0');
        if (digit > most || *number > (most - digit) / 10) return 0;
        *number = *number * 10 + digit;
    }
    return digits;
}
