/* The settings of RS. See settings.h. */
#include "settings.h"
#include "signals.h"
#include <errno.h>
#include <fcntl.h>
#include <stdio.h>
#include <string.h>
#include <sys/stat.h>
#include <unistd.h>

enum {
    RING = 4096,   /* items of the store's journal */
    MOST = 1 << 20 /* bytes of a file of settings */
};

static bool failed(struct events *events, const char *path, const char *why) {
    events_tell(events, LOG_ERROR, "settings: %s: %s", path, why);
    return false;
}

/* Opens a file, and nothing that a reading would wait for. Returns NULL, with errno. */
static FILE *open_file(const char *path) {
    struct stat it;
    int file = open(path, O_RDONLY | O_NONBLOCK | O_CLOEXEC);
    bool is_file = file >= 0 && !fstat(file, &it) && S_ISREG(it.st_mode);
    if (is_file) return fdopen(file, "r");
    if (file >= 0) close(file), errno = EINVAL;
    return NULL;
}

bool settings_read(const char *path, struct text *text, struct events *events) {
    FILE *file = open_file(path);
    if (!file) return failed(events, path, strerror(errno));
    bool has_room = text_room(text, MOST);
    if (has_room) text->length = fread(text->bytes, 1, MOST, file);
    int error = !has_room ? ENOMEM : ferror(file) ? errno : EFBIG;
    bool is_whole = has_room && feof(file);
    fclose(file);
    return is_whole || failed(events, path, strerror(error));
}

/* Logs a fault by its word. `dsctl settings` has a sentence for each fault, with the line. */
static bool refused(struct events *events, const char *path, uint32_t refusal, const struct ds_settings_fault *fault) {
    char why[120];
    const char *word = ds_refusal_text(refusal), *more = refusal >= DS_TOML && refusal <= DS_SHAREDNAME ? "; `dsctl settings` explains it" : "";
    if (fault->line) snprintf(why, sizeof why, "line %llu: %s%s", (unsigned long long)fault->line, word, more);
    else if (fault->service != UINT32_MAX) snprintf(why, sizeof why, "service %u, counted from 0: %s%s", fault->service, word, more);
    else snprintf(why, sizeof why, "%s%s", word, more);
    return failed(events, path, why);
}

/* A label with a dot in front would name a folder that isn't a service's, `..` for one. */
static bool name_folders(struct ds_handle *store) {
    struct ds_rs_service it;
    for (size_t i = 0; !ds_rs_service(store, i, &it); i++)
        if (*it.label == '.') return false;
    return true;
}

bool settings_say_none(const struct text *text) {
    char line[64];
    for (size_t at = 0, length; at < text->length; at += length + 1) {
        const char *end = memchr(text->bytes + at, '\n', text->length - at);
        int matched = 0;
        length = end ? (size_t)(end - text->bytes) - at : text->length - at;
        snprintf(line, sizeof line, "%.*s", (int)length, text->bytes + at);
        sscanf(line, " service = [ ]%n", &matched); /* a space of the format may be none in the line */
        if (matched) return true;
    }
    return false;
}

bool settings_open(struct ds_handle *store, const char *path, const struct text *text, uint32_t next, uint16_t slot,
                   struct events *events) {
    struct ds_settings_fault fault = {.service = UINT32_MAX};
    uint32_t refusal = ds_open(store, run_number(), 0, RING);
    if (!refusal) refusal = ds_rs_open(store, text->bytes, text->length, next, slot, &fault);
    bool fine = refusal ? refused(events, path, refusal, &fault) : name_folders(store) || failed(events, path, "a label begins with a dot");
    if (!fine) ds_close(store);
    return fine;
}
