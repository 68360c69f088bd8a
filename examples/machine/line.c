/* A service's line to dsrs. See line.h. */
#include "line.h"
#include <errno.h>
#include <stdarg.h>
#include <stdio.h>
#include <stdlib.h>
#include <string.h>
#include <sys/socket.h>

enum { LONGEST = 1024 };

void line_open(struct line *line) {
    const char *file = getenv("DS_FD");
    line->file = file ? atoi(file) : -1;
    line->length = 0;
}

bool line_say(const struct line *line, const char *format, ...) {
    char text[LONGEST];
    va_list given;
    va_start(given, format);
    int length = vsnprintf(text, sizeof text - 1, format, given);
    va_end(given);
    if (length < 0 || length >= (int)sizeof text - 1) return false;
    text[length++] = '\n';
    return send(line->file, text, (size_t)length, MSG_NOSIGNAL) == length;
}

bool line_read(struct line *line) {
    ssize_t got = recv(line->file, line->in + line->length, sizeof line->in - 1 - line->length, MSG_DONTWAIT);
    if (got > 0) line->length += (size_t)got;
    return got > 0 || (got < 0 && (errno == EAGAIN || errno == EINTR));
}

char *line_next(struct line *line) {
    static char answer[sizeof line->in];
    line->in[line->length] = '\0';
    char *end = strstr(line->in, "\n\n");
    if (!end) return NULL;
    size_t length = (size_t)(end - line->in);
    memcpy(answer, line->in, length);
    answer[length] = '\0';
    line->length -= length + 2;
    memmove(line->in, end + 2, line->length);
    return answer;
}
