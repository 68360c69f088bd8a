/* How a server hears where drivers are. See labels.h. */
#include "labels.h"
#include "line.h"
#include "table.h"
#include <stdio.h>
#include <stdlib.h>
#include <string.h>

enum { ITEMS = 8 /* of a check */ };

static struct line rs;
static int sub;

void labels_open(const char *pattern) {
    const char *first = getenv("DS_SUB");
    line_open(&rs);
    sub = first ? atoi(first) : -1;
    if (sub < 0 || !line_say(&rs, "subscribe %d \"%s\" 1 first over", sub, pattern) || !line_say(&rs, "listen %d", sub)) exit(1);
}

int labels_file(void) { return rs.file; }

void labels_complain(uint32_t generation, uint16_t slot) { line_say(&rs, "complain %u/%u", generation, slot); }

static bool begins(const char *said, const char *word) { return !strncmp(said, word, strlen(word)); }

/* The items of a check come before its last line. If there are as many as were asked for, there may be more. */
static void learn(char *said) {
    char *newline = strrchr(said, '\n'), *last = newline ? newline + 1 : said;
    unsigned shown = 0;
    if (sscanf(last, "checked %u", &shown) != 1) return;
    if (shown && !table_learn(said, (size_t)(last - said))) exit(3);
    if (shown == ITEMS) line_say(&rs, "check %d %d", sub, ITEMS);
}

void labels_hear(void) {
    if (!line_read(&rs)) exit(0);
    for (char *said; (said = line_next(&rs));) {
        if (begins(said, "ping")) line_say(&rs, "beat");
        else if (begins(said, "notice ") || begins(said, "listening ")) line_say(&rs, "check %d %d", sub, ITEMS);
        else learn(said);
    }
}
