/* Answers of a dsrs or a dsfleet. See answers.h. */
#include "answers.h"
#include "table.h"
#include <errno.h>
#include <stdio.h>
#include <string.h>
#include <unistd.h>

enum { MOST = 256 /* items of a check */ };

bool answer_is_notice(const char *answer, size_t length) { return text_begins(answer, length, "notice "); }

/* Written at once, so a pipe's reader has each answer on arrival. */
static bool write_out(const char *bytes, size_t length) {
    while (length) {
        ssize_t put = write(STDOUT_FILENO, bytes, length);
        if (put < 0 && errno != EINTR) return false;
        if (put < 0) continue;
        bytes += put;
        length -= (size_t)put;
    }
    return true;
}

static bool is_refusal(const char *answer, size_t length) {
    return text_begins(answer, length, "refused ") || text_begins(answer, length, "badline ") || text_begins(answer, length, "norequest\n");
}

bool printing_put(struct printing *printing, const char *answer, size_t length) {
    struct text table = {0};
    printing->refused |= is_refusal(answer, length);
    if (!printing->as_table || answer_is_notice(answer, length) || is_refusal(answer, length)) return write_out(answer, length - 1);
    bool fine = table_put(answer, length - 1, &table) && write_out(table.bytes, table.length);
    text_free(&table);
    return fine;
}

/* ---- watching ---- */

bool watching_begin(struct watching *watching, struct text *to) {
    return text_print(to, "subscribe %d \"", watching->sub) && text_put(to, watching->pattern, strlen(watching->pattern))
           && text_print(to, "\" %d first over\n", watching->kinds);
}

/* Prints the items that a check showed, and asks for more unless there were none. */
static bool take_items(const struct watching *watching, const char *answer, size_t length, struct text *to) {
    const char *end = answer + length - 1, *count = NULL;
    for (const char *line = answer; line < end;) {
        size_t used = (size_t)((const char *)memchr(line, '\n', (size_t)(end - line)) - line) + 1;
        if (text_begins(line, used, "checked ")) count = line + strlen("checked ");
        else if (!text_begins(line, used, "owed ") && !write_out(line, used)) return false;
        line += used;
    }
    return !count || *count == '0' || text_print(to, "check %d %d\n", watching->sub, MOST);
}

bool watching_take(struct watching *watching, const char *answer, size_t length, struct text *to) {
    if (text_begins(answer, length, "refused notallowed\n") && watching->sub < watching->last_sub) {
        watching->sub++;
        return watching_begin(watching, to);
    }
    if (is_refusal(answer, length)) {
        fprintf(stderr, "dsask: it can't be watched: %.*s", (int)(length - 1), answer);
        watching->refused = true;
        errno = EPIPE;
        return false;
    }
    if (text_begins(answer, length, "subscribed ")) return text_print(to, "listen %d\ncheck %d %d\n", watching->sub, watching->sub, MOST);
    if (answer_is_notice(answer, length)) return text_print(to, "check %d %d\n", watching->sub, MOST);
    return text_begins(answer, length, "listening ") || take_items(watching, answer, length, to);
}
