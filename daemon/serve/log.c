/* The lines that dsfleet and dsrs write to standard error. See log.h. */
#include "log.h"
#include "clock.h"
#include "text.h"
#include <errno.h>
#include <fcntl.h>
#include <limits.h>
#include <poll.h>
#include <stdarg.h>
#include <stdio.h>
#include <string.h>
#include <sys/socket.h>
#include <sys/stat.h>
#include <unistd.h>

enum {
    COUNTED_EACH = 10 * SECOND,
    LOG_WHOLE = PIPE_BUF, /* bytes of the longest line, which a pipe takes whole or not at all */
    LOG_TAIL = 10,        /* bytes of an escaped byte, and of the end of a line */
    LOG_NAME = 100
};

bool log_read_format(void *as_json, char *word) {
    bool is_json = !strcmp(word, "json");
    *(bool *)as_json = is_json;
    return is_json || !strcmp(word, "text");
}

/* A pipe or a terminal is opened again, with O_NONBLOCK: set on standard error itself, the flag would affect all processes that
 * share the descriptor. A file isn't, since a new descriptor would have an offset of its own. */
void log_open(struct log *log, bool as_json) {
    struct stat it;
    for (int standard = 0; standard <= STDERR_FILENO; standard++) {
        if (fcntl(standard, F_GETFD) < 0 && open("/dev/null", O_RDWR) < 0) break;
    }
    *log = (struct log){.descriptor = STDERR_FILENO, .as_json = as_json};
    if (fstat(STDERR_FILENO, &it)) return;
    log->is_socket = S_ISSOCK(it.st_mode);
    if (!S_ISFIFO(it.st_mode) && !S_ISCHR(it.st_mode)) return;
    int own = open("/proc/self/fd/2", O_WRONLY | O_NONBLOCK | O_NOCTTY | O_CLOEXEC);
    if (own >= 0) log->descriptor = own;
}

/* UNWRITABLE: the reader is gone, or a disk is full. */
enum written { WRITTEN, NO_ROOM, UNWRITABLE };

static enum written write_line(const struct log *log, const char *line, size_t length) {
    struct pollfd it = {.fd = log->descriptor, .events = POLLOUT};
    ssize_t put;
    if (!log->is_socket && poll(&it, 1, 0) <= 0) return NO_ROOM;
    if (log->is_socket) put = send(log->descriptor, line, length, MSG_DONTWAIT | MSG_NOSIGNAL);
    else put = write(log->descriptor, line, length);
    if (put > 0) return WRITTEN;
    return put < 0 && (errno == EAGAIN || errno == EINTR || errno == ENOBUFS) ? NO_ROOM : UNWRITABLE;
}

/* Takes a line from the quota of an event. Returns false if the quota is used up. */
static bool take_quota(struct log *log, const char *event, size_t length) {
    uint64_t now = clock_now(), hash = 0;
    for (size_t i = 0; i < length; i++) hash = hash * 31 + (unsigned char)event[i];
    uint64_t *due = &log->due[hash % LOG_WORDS];
    if (*due < now) *due = now;
    if (*due >= now + LOG_AT_ONCE * SECOND) return false;
    *due += SECOND;
    return true;
}

/* Appends a text in quotes, as much as fits. JSON allows no byte that isn't printable ASCII, so each of these is
 * `\u00XX` there. Returns the line's length. */
static size_t append_quoted(const struct log *log, char *line, size_t length, const char *text, size_t count) {
    line[length++] = '"';
    for (size_t i = 0; i < count && length < LOG_WHOLE - LOG_TAIL; i++) {
        unsigned char byte = (unsigned char)text[i];
        if (log->as_json && (byte < ' ' || byte > '~')) {
            length += (size_t)sprintf(line + length, "\\u%04x", byte);
            continue;
        }
        if (byte == '"' || byte == '\\') line[length++] = '\\';
        line[length++] = (char)byte;
    }
    line[length++] = '"';
    return length;
}

void log_say(struct log *log, const char *level, const char *format, ...) {
    char text[LOG_LINE], line[LOG_WHOLE];
    va_list given;
    va_start(given, format);
    vsnprintf(text, sizeof text, format, given);
    va_end(given);
    size_t event = strcspn(text, ":"), rest = event + strspn(text + event, ": ");
    const char *head = log->as_json ? "{\"level\":\"%s\",\"event\":\"%.*s\",\"text\":" : "%s event=%.*s text=";
    size_t length = (size_t)snprintf(line, sizeof line, head, level, (int)event, text);
    length = append_quoted(log, line, length, text + rest, strlen(text + rest));
    length += (size_t)sprintf(line + length, log->as_json ? "}\n" : "\n");
    if (!take_quota(log, text, event) || write_line(log, line, length) != WRITTEN) log->left_out++;
}

void log_tell(void *log, const char *line) {
    bool is_fine = text_begins(line, strlen(line), "met:") || text_begins(line, strlen(line), "compacted:");
    log_say(log, is_fine ? LOG_INFO : LOG_WARN, "%s", line);
}

/* Writes a line of another program as JSON. */
static enum written pass_json(const struct log *log, const char *name, const char *line, size_t length) {
    char whole[LOG_WHOLE];
    if (length > LOG_PASSED || strlen(name) > LOG_NAME) return UNWRITABLE;
    size_t put = (size_t)sprintf(whole, "{\"level\":\"" LOG_INFO "\",\"event\":\"output\",\"service\":\"%s\",\"text\":", name);
    put = append_quoted(log, whole, put, line, length);
    put += (size_t)sprintf(whole + put, "}\n");
    return write_line(log, whole, put);
}

static enum written pass_text(const struct log *log, const char *name, const char *line, size_t length) {
    char whole[LOG_PASSED + LOG_NAME];
    if (length > LOG_PASSED || strlen(name) > LOG_NAME - sizeof ": \n") return UNWRITABLE;
    size_t put = (size_t)sprintf(whole, "%s: ", name);
    memcpy(whole + put, line, length);
    whole[put + length] = '\n';
    return write_line(log, whole, put + length + 1);
}

bool log_pass(struct log *log, const char *name, const char *line, size_t length) {
    enum written written = (log->as_json ? pass_json : pass_text)(log, name, line, length);
    log->left_out += written == UNWRITABLE;
    return written != NO_ROOM;
}

void log_count(struct log *log) {
    char line[LOG_LINE];
    if (!log->left_out || clock_now() < log->count_at) return;
    const char *format = LOG_WARN " event=left_out lines=%llu\n";
    if (log->as_json) format = "{\"level\":\"" LOG_WARN "\",\"event\":\"left_out\",\"lines\":%llu}\n";
    int length = snprintf(line, sizeof line, format, (unsigned long long)log->left_out);
    if (write_line(log, line, (size_t)length) != WRITTEN) return;
    log->left_out = 0;
    log->count_at = clock_now() + COUNTED_EACH;
}

void log_close(struct log *log) {
    log->count_at = 0;
    log_count(log);
    if (log->descriptor != STDERR_FILENO) close(log->descriptor);
}
