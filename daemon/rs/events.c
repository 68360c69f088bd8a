/* Events. See events.h. */
#include "events.h"
#include "clock.h"
#include <stdarg.h>
#include <stdio.h>
#include <string.h>

/* Keeps a text `WORD: TEXT` as `SECONDS WORD TEXT`, in place of the oldest event. */
static void keep(struct events *events, const char *text) {
    uint64_t age = clock_now() - events->begun;
    int word = (int)strcspn(text, ":");
    const char *rest = text + word + strspn(text + word, ":");
    snprintf(events->event[events->count++ % EVENTS], EVENT, "%llu.%03llu %.*s%s", (unsigned long long)age / 1000,
             (unsigned long long)age % 1000, word, text, rest);
}

void events_tell(struct events *events, const char *level, const char *format, ...) {
    char text[EVENT];
    va_list given;
    va_start(given, format);
    vsnprintf(text, sizeof text, format, given);
    va_end(given);
    log_say(events->log, level, "%s", text);
    keep(events, text);
}

bool events_put(const struct events *events, struct text *to) {
    uint64_t first = events->count > EVENTS ? events->count - EVENTS : 0;
    bool put = true;
    for (uint64_t i = first; put && i < events->count; i++) put = text_print(to, "%s\n", events->event[i % EVENTS]);
    return put && text_print(to, "events %llu\n", (unsigned long long)events->count);
}
