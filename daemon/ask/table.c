/* The services of a dsrs as a table. See table.h. */
#include "table.h"
#include <stdio.h>
#include <string.h>

enum { LABEL = 64, WORD = 24, TEXT = 80 };

struct row {
    char label[LABEL + 1], state[WORD], endpoint[WORD], pid[WORD], text[TEXT];
    unsigned long long seconds;
    unsigned failures, cause;
};

static bool read_row(const char *line, size_t length, struct row *row) {
    char copy[256];
    int used = 0;
    snprintf(copy, sizeof copy, "%.*s", (int)length, line);
    int read = sscanf(copy, "%64s %23s %23s %23s %llu %u %u %n", row->label, row->state, row->endpoint, row->pid, &row->seconds,
                      &row->failures, &row->cause, &used);
    snprintf(row->text, sizeof row->text, "%s", copy + used);
    return read == 7;
}

static const char *cause_of(const struct row *row) {
    static const char *const words[] = {"-", "exit", "exception", "signal", "heartbeat", "complaint", "update"};
    return row->cause < sizeof words / sizeof *words ? words[row->cause] : "?";
}

/* The time in the largest unit. */
static void spell(unsigned long long seconds, char text[WORD]) {
    static const struct { unsigned long long seconds; char letter; } units[] = {{86400, 'd'}, {3600, 'h'}, {60, 'm'}, {1, 's'}};
    size_t unit = 0;
    while (unit < 3 && seconds < units[unit].seconds) unit++;
    snprintf(text, WORD, "%llu%c", seconds / units[unit].seconds, units[unit].letter);
}

static bool put_row(const struct row *row, int width, struct text *to) {
    char since[WORD];
    spell(row->seconds, since);
    return text_print(to, "%-*s  %-8s %-10s %-8s %-6s %-9u %-10s %s\n", width, row->label, row->state, row->endpoint, row->pid, since,
                      row->failures, cause_of(row), row->text);
}

/* Returns the length of the longest label, which is the text before the first space of a line, or of the heading LABEL. */
static int width_of(const char *answer, size_t length) {
    int width = (int)strlen("LABEL");
    for (const char *line = answer, *end = answer + length; line < end; line = (const char *)memchr(line, '\n', (size_t)(end - line)) + 1)
        if ((int)strcspn(line, " ") > width) width = (int)strcspn(line, " ");
    return width;
}

bool table_put(const char *answer, size_t length, struct text *to) {
    int width = width_of(answer, length);
    const char *end = answer + length;
    bool put = text_print(to, "%-*s  STATE    ENDPOINT   PID      SINCE  FAILURES  LAST END   STATUS\n", width, "LABEL");
    for (const char *line = answer; put && line < end;) {
        size_t used = (size_t)((const char *)memchr(line, '\n', (size_t)(end - line)) - line) + 1;
        struct row row;
        if (read_row(line, used - 1, &row)) put = put_row(&row, width, to);
        line += used;
    }
    return put;
}
