/* The lines that dsfleet and dsrs write to standard error, as `LEVEL event=WORD text="TEXT"`, or as objects of JSON.
 * Writing never waits: a line of an event that can't be written at once is left out, and counted. Lines of one event are
 * limited, so that a flood of one kind neither fills a disk nor hides the other kinds. */
#ifndef SERVE_LOG_H
#define SERVE_LOG_H

#include <stdbool.h>
#include <stddef.h>
#include <stdint.h>

#define LOG_INFO "INFO"
#define LOG_WARN "WARN"
#define LOG_ERROR "ERROR" /* the program ends after this event */

enum {
    LOG_WORDS = 64,
    LOG_LINE = 600,      /* bytes of an event's text; the rest is cut off */
    LOG_PASSED = 1024,   /* bytes of a line that is passed on */
    LOG_AT_ONCE = 100    /* lines of one event, and then one a second */
};

struct log {
    int descriptor;
    bool is_socket;
    bool as_json;
    uint64_t due[LOG_WORDS]; /* for each event, by its hash: when its quota is used up */
    uint64_t left_out;       /* lines since that was last written */
    uint64_t count_at;       /* when the event may be written again */
};

/* Reads the value of an option, `text` or `json`, into a bool. Returns whether the value is one of these. */
bool log_read_format(void *as_json, char *word);
/* Opens the log. Standard descriptors that are closed become /dev/null first, so that nothing else takes their
 * numbers. */
void log_open(struct log *log, bool as_json);
/* Writes one line, of a text `WORD: TEXT`. */
void log_say(struct log *log, const char *level, const char *format, ...) __attribute__((format(printf, 3, 4)));
/* Writes a line of a fleet: a ds_fleet_tell. */
void log_tell(void *log, const char *line);
/* Writes a line of another program, of at most LOG_PASSED bytes without the newline, as `NAME: LINE`. These lines have no quota. Returns
 * false if standard error is full, and the line isn't written. A line that can't be written at all, as without a reader, is left out, and
 * counted. */
bool log_pass(struct log *log, const char *name, const char *line, size_t length);
/* Writes how many lines were left out, each ten seconds at most. */
void log_count(struct log *log);
void log_close(struct log *log);

#endif
