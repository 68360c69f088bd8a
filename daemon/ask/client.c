/* A client of a dsrs or a dsfleet, and the side of an instance that dsrs started. See client.h.
 *
 * Answers come in the order of their lines, so a client counts the answers that nobody waits for: those of calls that timed out, and
 * those of heartbeats. Between answers the daemon sends notices, pings and peers, which are known by their first word.
 *
 * A watch takes notices for no more than a wake-up. All that it returns comes from `since` at its cursor, or from a snapshot. */
#ifndef _GNU_SOURCE
#define _GNU_SOURCE
#endif
#include "client.h"
#include <errno.h>
#include <fcntl.h>
#include <inttypes.h>
#include <poll.h>
#include <stdarg.h>
#include <stdio.h>
#include <stdlib.h>
#include <sys/socket.h>
#include <sys/un.h>
#include <time.h>
#include <unistd.h>

enum {
    PIECE = 1 << 16,         /* bytes that are received at a time */
    KEPT = 1 << 16,          /* bytes of room that an empty buffer keeps */
    MOST = 256,              /* items of a check or of a since */
    SUBS = 128,
    FIRST_PUBLIC = 120,      /* the first subscription that dsrs has for its clients */
    SERVER_SUBS = 8,         /* those that dsrs has for a server */
    LONGEST_PATTERN = 4096,  /* bytes of a line */
    HEAD = 256,              /* bytes that have all of a change line but a text */
    LEAST_PAUSE = 1, MOST_PAUSE = 32, /* milliseconds between two attempts */
    WORD = 24
};

/* Bytes that grow at the end and are taken from the front. */
struct buffer { char *bytes; size_t begin, end, room; };

struct ds_client {
    int file, timeout;
    bool is_instance, acts;
    unsigned opened;          /* how many connections there were, this one included */
    bool awaits;              /* a call waits for its answer */
    size_t late, later;       /* answers that are dropped: before the awaited one, and after it */
    struct buffer in, out, answer;
    size_t searched;          /* bytes at the front of `in` that have no end of an answer */
    struct ds_endpoint endpoint;
    uint32_t seq;             /* the number of the next change */
    uint8_t noticed[SUBS / 8], used[SUBS / 8], watched[SUBS / 8];
    char word[WORD];
    char path[sizeof((struct sockaddr_un *)0)->sun_path];
};

struct ds_watch {
    struct ds_client *client;
    char *scope;              /* `"PATTERN" KINDS` */
    unsigned opened;          /* the connection in which it subscribed, or 0 */
    int sub;
    bool is_due, is_anew, has_cursor, has_returned;
    struct ds_cursor cursor, returned; /* after the items at hand; after those that were returned */
    struct buffer items;      /* at hand */
    const char *at;           /* the next of them */
};

/* ---- bytes ---- */

static size_t buffered(const struct buffer *it) { return it->end - it->begin; }

static bool reserve(struct buffer *it, size_t more) {
    if (it->begin) {
        memmove(it->bytes, it->bytes + it->begin, buffered(it));
        it->end -= it->begin;
        it->begin = 0;
    }
    if (it->room - it->end >= more) return true;
    size_t room = 2 * it->end + more;
    char *grown = realloc(it->bytes, room);
    if (!grown) return false;
    it->bytes = grown;
    it->room = room;
    return true;
}

static void clear(struct buffer *it) {
    if (it->room > KEPT) {
        free(it->bytes);
        *it = (struct buffer){0};
    }
    it->begin = it->end = 0;
}

static void drop(struct buffer *it, size_t length) {
    it->begin += length;
    if (it->begin == it->end) clear(it);
}

static bool append(struct buffer *it, const void *bytes, size_t length) {
    if (!reserve(it, length + 1)) return false; /* a byte for a zero */
    if (length) memcpy(it->bytes + it->end, bytes, length);
    it->end += length;
    it->bytes[it->end] = '\0';
    return true;
}

static bool begins(const char *text, const char *front) { return !strncmp(text, front, strlen(front)); }

static bool has(const uint8_t subs[SUBS / 8], int sub) { return subs[sub / 8] >> sub % 8 & 1; }

static void set(uint8_t subs[SUBS / 8], int sub, bool is_in) {
    uint8_t bit = (uint8_t)(1 << sub % 8);
    subs[sub / 8] = (uint8_t)(is_in ? subs[sub / 8] | bit : subs[sub / 8] & ~bit);
}

/* ---- time ---- */

static int64_t now(void) {
    struct timespec it;
    clock_gettime(CLOCK_MONOTONIC, &it);
    return (int64_t)it.tv_sec * 1000 + it.tv_nsec / 1000000;
}

static int64_t end_of(int timeout) { return timeout < 0 ? INT64_MAX : now() + timeout; }

/* Milliseconds for poll, until an end. */
static int left(int64_t end) {
    if (end == INT64_MAX) return -1;
    int64_t it = end - now();
    return it <= 0 ? 0 : it > INT32_MAX ? INT32_MAX : (int)it;
}

/* Pauses before another attempt, longer each time. Returns false once the time is over. */
static bool pause_until(int64_t end, int *pause) {
    int rest = left(end);
    if (!rest) return false;
    poll(NULL, 0, rest < 0 || rest > *pause ? *pause : rest);
    *pause = *pause * 2 < MOST_PAUSE ? *pause * 2 : MOST_PAUSE;
    return true;
}

/* ---- faults ---- */

static uint32_t fail(struct ds_client *client, uint32_t fault) {
    const char *word = fault == DS_CLIENT_TIMEOUT ? "timeout" : fault == DS_CLIENT_LOST ? "lost" : "badcall";
    if (fault == DS_CLIENT_NOMEMORY) word = "noroom";
    snprintf(client->word, sizeof client->word, "%s", word);
    return fault;
}

static uint32_t lose(struct ds_client *client, int why) {
    if (client->file >= 0) close(client->file);
    client->file = -1;
    errno = why;
    return fail(client, DS_CLIENT_LOST);
}

/* Returns the number of the refusal that an answer is, or 0. */
static uint32_t judge(struct ds_client *client, const char *answer) {
    bool is_refused = begins(answer, "refused ");
    if (!is_refused && !begins(answer, "badline ") && !begins(answer, "norequest\n")) return 0;
    const char *word = is_refused ? answer + strlen("refused ") : answer;
    snprintf(client->word, sizeof client->word, "%.*s", (int)strcspn(word, " \n"), word);
    if (!is_refused) return *answer == 'b' ? DS_CLIENT_BADLINE : DS_CLIENT_NOREQUEST;
    for (uint32_t refusal = DS_BADSUB; *ds_refusal_text(refusal); refusal++)
        if (!strcmp(ds_refusal_text(refusal), client->word)) return refusal;
    return strcmp(client->word, "notsender") ? DS_CLIENT_OTHER : DS_CLIENT_NOTSENDER;
}

const char *ds_client_word(const struct ds_client *client) { return client->word; }

/* ---- connections ---- */

/* Returns a descriptor that doesn't wait, above the standard ones, of which the caller may have closed some; or -1 with errno. */
static int connected(const char *path, int type) {
    struct sockaddr_un address = {.sun_family = AF_UNIX};
    size_t length = strlen(path);
    errno = ENAMETOOLONG;
    if (length >= sizeof address.sun_path) return -1;
    memcpy(address.sun_path, path, length);
    int low = socket(AF_UNIX, type | SOCK_CLOEXEC | SOCK_NONBLOCK, 0), file = low;
    if (low >= 0 && low <= STDERR_FILENO) {
        file = fcntl(low, F_DUPFD_CLOEXEC, STDERR_FILENO + 1);
        close(low);
    }
    if (file < 0 || !connect(file, (struct sockaddr *)&address, sizeof address)) return file;
    int why = errno;
    close(file);
    errno = why;
    return -1;
}

static void forget(struct ds_client *client) {
    clear(&client->in);
    clear(&client->out);
    client->searched = client->late = client->later = 0;
    memset(client->noticed, 0, sizeof client->noticed);
    memset(client->used, 0, sizeof client->used);
    memset(client->watched, 0, sizeof client->watched);
}

/* Connects, and waits while the daemon has too many clients to accept. */
static uint32_t open_until(struct ds_client *client, int64_t end) {
    int pause = LEAST_PAUSE;
    forget(client);
    while ((client->file = connected(client->path, SOCK_STREAM)) < 0)
        if (errno != EAGAIN || !pause_until(end, &pause)) return fail(client, DS_CLIENT_LOST);
    client->opened++;
    return 0;
}

static struct ds_client *client_new(int timeout) {
    struct ds_client *client = calloc(1, sizeof *client);
    if (client) client->file = -1, client->timeout = timeout;
    return client;
}

uint32_t ds_client_open(struct ds_client **client, const char *path, int timeout) {
    *client = NULL;
    errno = ENAMETOOLONG;
    if (strlen(path) >= sizeof (*client)->path) return DS_CLIENT_LOST;
    struct ds_client *made = client_new(timeout);
    if (!made) return DS_CLIENT_NOMEMORY;
    strcpy(made->path, path);
    uint32_t fault = open_until(made, end_of(timeout));
    int why = errno;
    if (fault) free(made);
    else *client = made;
    errno = why;
    return fault;
}

void ds_client_close(struct ds_client *client) {
    if (!client) return;
    if (client->file >= 0) close(client->file);
    free(client->in.bytes);
    free(client->out.bytes);
    free(client->answer.bytes);
    free(client);
}

static uint32_t say_as(struct ds_client *client) {
    char line[40];
    snprintf(line, sizeof line, "as %" PRIu32 "/%u", client->endpoint.generation, client->endpoint.slot);
    return ds_client_ask(client, line, NULL);
}

static uint32_t reopen(struct ds_client *client, int64_t end) {
    lose(client, 0);
    if (client->is_instance) return DS_CLIENT_LOST;
    uint32_t fault = open_until(client, end);
    return fault || !client->acts ? fault : say_as(client);
}

uint32_t ds_client_reconnect(struct ds_client *client) { return reopen(client, end_of(client->timeout)); }

int ds_client_file(const struct ds_client *client) { return client->file; }

short ds_client_events(const struct ds_client *client) { return (short)(POLLIN | (buffered(&client->out) ? POLLOUT : 0)); }

void ds_client_set_timeout(struct ds_client *client, int timeout) { client->timeout = timeout; }

/* ---- lines and answers ---- */

uint32_t ds_client_put(struct ds_client *client, const char *bytes, size_t length) {
    return append(&client->out, bytes, length) ? 0 : fail(client, DS_CLIENT_NOMEMORY);
}

/* A daemon that hung up may have sent answers before, so they are still received. */
static void send_out(struct ds_client *client) {
    while (buffered(&client->out)) {
        ssize_t put = send(client->file, client->out.bytes + client->out.begin, buffered(&client->out), MSG_DONTWAIT | MSG_NOSIGNAL);
        if (put < 0 && errno == EPIPE) clear(&client->out);
        if (put < 0) return;
        drop(&client->out, (size_t)put);
    }
}

uint32_t ds_client_turn(struct ds_client *client) {
    if (client->file < 0) return fail(client, DS_CLIENT_LOST);
    send_out(client);
    if (!reserve(&client->in, PIECE)) return fail(client, DS_CLIENT_NOMEMORY);
    ssize_t got = recv(client->file, client->in.bytes + client->in.end, PIECE, MSG_DONTWAIT);
    if (got > 0) client->in.end += (size_t)got;
    if (!got) return lose(client, 0);
    return got > 0 || errno == EAGAIN || errno == EINTR ? 0 : lose(client, errno);
}

/* Returns the length of the first answer, with the empty line, or 0. No byte is searched twice. */
static size_t answer_length(struct ds_client *client) {
    struct buffer *in = &client->in;
    const char *bytes = in->bytes + in->begin;
    size_t length = buffered(in), from = client->searched ? client->searched - 1 : 0;
    if (length && *bytes == '\n') return 1;
    const char *end = length > from ? memmem(bytes + from, length - from, "\n\n", 2) : NULL;
    client->searched = end ? 0 : length;
    return end ? (size_t)(end - bytes) + 2 : 0;
}

size_t ds_client_take(struct ds_client *client, const char **bytes) {
    size_t length = answer_length(client);
    *bytes = client->in.bytes + client->in.begin;
    client->in.begin += length; /* the next ds_client_turn reuses the bytes */
    return length;
}

/* Takes what isn't an answer: a notice, a ping of dsrs, or the line on another instance that connected, whose descriptor the kernel
 * has closed. Returns whether the bytes were one. */
static bool take_other(struct ds_client *client, const char *bytes) {
    if (begins(bytes, "notice ")) {
        int sub = atoi(bytes + strlen("notice "));
        if (sub >= 0 && sub < SUBS) set(client->noticed, sub, true);
        return true;
    }
    if (!client->is_instance) return false;
    if (!begins(bytes, "ping\n")) return begins(bytes, "peer ");
    if (append(&client->out, "beat\n", strlen("beat\n"))) *(client->awaits ? &client->later : &client->late) += 1;
    return true;
}

/* Takes all up to the next answer that is awaited. Returns that answer's length, or 0 if it isn't whole yet. */
static size_t sort(struct ds_client *client) {
    size_t length;
    while ((length = answer_length(client))) {
        bool is_other = take_other(client, client->in.bytes + client->in.begin);
        if (!is_other && !client->late) break;
        client->late -= !is_other;
        drop(&client->in, length);
    }
    if (client->file >= 0) send_out(client);
    return length;
}

/* Waits until something comes or can be sent. A signal ends the wait early, and no call. */
static uint32_t wait_until(struct ds_client *client, int64_t end) {
    struct pollfd polled = {.fd = client->file, .events = ds_client_events(client)};
    if (client->file < 0) return fail(client, DS_CLIENT_LOST);
    if (!poll(&polled, 1, left(end))) return fail(client, DS_CLIENT_TIMEOUT);
    return ds_client_turn(client);
}

/* Copies the answer, without its empty line, for the caller. */
static uint32_t take_answer(struct ds_client *client, size_t length) {
    clear(&client->answer);
    bool fits = append(&client->answer, client->in.bytes + client->in.begin, length - 1);
    drop(&client->in, length);
    return fits ? judge(client, client->answer.bytes) : fail(client, DS_CLIENT_NOMEMORY);
}

static uint32_t ask_until(struct ds_client *client, int64_t end) {
    uint32_t fault = 0;
    size_t length;
    client->awaits = true;
    send_out(client);
    while (!(length = sort(client)) && !fault) fault = wait_until(client, end);
    client->awaits = false;
    client->late += client->later + !length;
    client->later = 0;
    return length ? take_answer(client, length) : fault;
}

uint32_t ds_client_ask(struct ds_client *client, const char *line, const char **answer) {
    if (strchr(line, '\n')) return fail(client, DS_CLIENT_BADCALL);
    if (client->file < 0) return fail(client, DS_CLIENT_LOST);
    if (!reserve(&client->out, strlen(line) + 2)) return fail(client, DS_CLIENT_NOMEMORY);
    append(&client->out, line, strlen(line));
    append(&client->out, "\n", 1);
    uint32_t fault = ask_until(client, end_of(client->timeout));
    if (answer) *answer = fault < DS_CLIENT_TIMEOUT ? client->answer.bytes : "";
    return fault;
}

/* As ds_client_ask, for a line that is printed. */
__attribute__((format(printf, 3, 4))) static uint32_t ask(struct ds_client *client, const char **answer, const char *format, ...) {
    char *line;
    va_list given;
    va_start(given, format);
    int length = vasprintf(&line, format, given);
    va_end(given);
    if (length < 0) return fail(client, DS_CLIENT_NOMEMORY);
    uint32_t fault = ds_client_ask(client, line, answer);
    free(line);
    return fault;
}

/* ---- values ---- */

static const char *kind_text(uint8_t kind) { return kind == DS_LABEL ? "label" : kind == DS_U32 ? "u32" : kind == DS_STR ? "str" : "mem"; }

static uint8_t kind_of(const char *text) {
    for (uint8_t kind = DS_LABEL; kind <= DS_MEM; kind = (uint8_t)(kind << 1))
        if (!strcmp(text, kind_text(kind))) return kind;
    return 0;
}

struct ds_value ds_value_u32(uint32_t number) { return (struct ds_value){.kind = DS_U32, .number = number}; }

struct ds_value ds_value_label(struct ds_endpoint endpoint) { return (struct ds_value){.kind = DS_LABEL, .endpoint = endpoint}; }

static struct ds_value value_of(uint8_t kind, const void *bytes, size_t length) {
    struct ds_value value = {.kind = kind, .length = length};
    if (length) memcpy(value.bytes, bytes, length < sizeof value.bytes ? length : sizeof value.bytes - 1);
    return value;
}

struct ds_value ds_value_str(const char *text) { return value_of(DS_STR, text, strlen(text)); }

struct ds_value ds_value_mem(const void *bytes, size_t length) { return value_of(DS_MEM, bytes, length); }

/* Puts bytes between quotes, with a backslash before each quote and backslash. */
static bool append_quoted(struct buffer *to, const char *bytes, size_t length) {
    bool fits = append(to, "\"", 1);
    for (size_t i = 0; i < length; i++) {
        if (bytes[i] == '"' || bytes[i] == '\\') fits = fits && append(to, "\\", 1);
        fits = fits && append(to, bytes + i, 1);
    }
    return fits && append(to, "\"", 1);
}

static bool append_hex(struct buffer *to, const char *bytes, size_t length) {
    static const char digits[] = "0123456789abcdef";
    bool fits = append(to, "", 0);
    for (size_t i = 0; i < length; i++) {
        unsigned byte = (unsigned char)bytes[i];
        fits = fits && append(to, &digits[byte >> 4], 1) && append(to, &digits[byte & 15], 1);
    }
    return fits;
}

static bool append_value(struct buffer *to, const struct ds_value *value) {
    char number[32];
    if (value->kind == DS_STR) return append_quoted(to, value->bytes, value->length);
    if (value->kind == DS_MEM) return append_hex(to, value->bytes, value->length);
    if (value->kind == DS_U32) snprintf(number, sizeof number, "%" PRIu32, value->number);
    else snprintf(number, sizeof number, "%" PRIu32 "/%u", value->endpoint.generation, value->endpoint.slot);
    return append(to, number, strlen(number));
}

static bool is_value(const struct ds_value *value) {
    if (value->kind == DS_STR) return value->length <= DS_MAX_STRING && ds_is_string(value->bytes, value->length);
    return ds_is_kind(value->kind) && value->length <= DS_MAX_MEMORY;
}

static bool read_endpoint(const char *text, struct ds_endpoint *endpoint) {
    return sscanf(text, "%" SCNu32 "/%" SCNu16, &endpoint->generation, &endpoint->slot) == 2;
}

static int digit_of(char digit) { return digit <= '9' ? digit - '0' : digit - 'a' + 10; }

static void read_hex(const char *text, struct ds_value *value) {
    for (; *text > '\n' && text[1] > '\n' && value->length < DS_MAX_MEMORY; text += 2)
        value->bytes[value->length++] = (char)(digit_of(*text) << 4 | digit_of(text[1]));
}

static void read_quoted(const char *text, struct ds_value *value) {
    for (const char *at = text + 1; *at > '\n' && *at != '"' && value->length < DS_MAX_STRING; at++) {
        at += *at == '\\';
        value->bytes[value->length++] = *at;
    }
}

/* Reads a value of the kind that value->kind names, up to the end of the line. */
static bool read_value(const char *text, struct ds_value *value) {
    value->length = 0;
    if (value->kind == DS_LABEL) return read_endpoint(text, &value->endpoint);
    if (value->kind == DS_U32) return sscanf(text, "%" SCNu32, &value->number) == 1;
    if (value->kind == DS_MEM) read_hex(text, value);
    else read_quoted(text, value);
    value->bytes[value->length] = '\0';
    return true;
}

/* ---- requests ---- */

static bool is_key(const char *name, uint8_t kind) { return ds_is_name(name, strlen(name)) && ds_is_kind(kind); }

uint32_t ds_client_retrieve(struct ds_client *client, const char *name, uint8_t kind, struct ds_value *value) {
    const char *answer;
    if (!is_key(name, kind)) return fail(client, DS_CLIENT_BADCALL);
    uint32_t fault = ask(client, &answer, "retrieve %s %s", name, kind_text(kind));
    *value = (struct ds_value){.kind = kind};
    if (!fault && !read_value(answer + strlen("found "), value)) return fail(client, DS_CLIENT_OTHER);
    return fault;
}

uint32_t ds_client_nameof(struct ds_client *client, struct ds_endpoint endpoint, char name[DS_MAX_NAME + 1]) {
    const char *answer;
    uint32_t fault = ask(client, &answer, "nameof %" PRIu32 "/%u", endpoint.generation, endpoint.slot);
    *name = '\0';
    if (!fault) sscanf(answer, "named %64s", name);
    return fault;
}

uint32_t ds_client_as(struct ds_client *client, struct ds_endpoint endpoint) {
    struct ds_endpoint before = client->endpoint;
    client->endpoint = endpoint;
    uint32_t fault = say_as(client);
    if (fault) client->endpoint = before;
    else client->acts = true;
    return fault;
}

/* Puts the front of a change, `WORD GENERATION/SLOT MODE NAME KIND GENERATION.NUMBER`. The number is used up, whatever the answer. */
static bool append_change(struct ds_client *client, struct buffer *line, const char *word, const char *name, uint8_t kind) {
    char front[200];
    uint32_t generation = client->endpoint.generation;
    int length = snprintf(front, sizeof front, "%s %s %s %" PRIu32 ".%" PRIu32, word, name, kind_text(kind), generation, client->seq++);
    return append(line, front, (size_t)length);
}

static uint32_t change(struct ds_client *client, const char *name, const struct ds_value *value, uint8_t kind) {
    struct buffer line = {0};
    char word[60];
    if (!client->acts || !is_key(name, kind) || (value && !is_value(value))) return fail(client, DS_CLIENT_BADCALL);
    const char *verb = value ? "publish" : "delete", *mode = value ? " over" : "";
    snprintf(word, sizeof word, "%s %" PRIu32 "/%u%s", verb, client->endpoint.generation, client->endpoint.slot, mode);
    bool fits = append_change(client, &line, word, name, kind);
    if (value) fits = fits && append(&line, " = ", 3) && append_value(&line, value);
    uint32_t fault = fits ? ds_client_ask(client, line.bytes, NULL) : fail(client, DS_CLIENT_NOMEMORY);
    free(line.bytes);
    return fault;
}

uint32_t ds_client_publish(struct ds_client *client, const char *name, const struct ds_value *value) {
    return change(client, name, value, value->kind);
}

uint32_t ds_client_delete(struct ds_client *client, const char *name, uint8_t kind) { return change(client, name, NULL, kind); }

/* ---- subscriptions ---- */

/* Returns `"PATTERN" KINDS` as a line has them, to be freed, or NULL after a fault. */
static char *scope_of(struct ds_client *client, const char *pattern, unsigned kinds, uint32_t *fault) {
    struct buffer scope = {0};
    char end[20];
    *fault = 0;
    if (strlen(pattern) > LONGEST_PATTERN || strchr(pattern, '\n') || !kinds || kinds > 15) {
        *fault = fail(client, DS_CLIENT_BADCALL);
        return NULL;
    }
    snprintf(end, sizeof end, " %u", kinds);
    if (append_quoted(&scope, pattern, strlen(pattern)) && append(&scope, end, strlen(end))) return scope.bytes;
    free(scope.bytes);
    *fault = fail(client, DS_CLIENT_NOMEMORY);
    return NULL;
}

/* Subscribes by the first free number of a range. If none is free, returns DS_NOTALLOWED, as a daemon answers. */
static uint32_t subscribe_from(struct ds_client *client, const char *scope, const char *when, int first, int count, int *sub) {
    uint32_t fault = judge(client, "refused notallowed\n");
    for (int it = first; fault == DS_NOTALLOWED && it < first + count; it++) {
        if (has(client->used, it)) continue;
        *sub = it;
        fault = ask(client, NULL, "subscribe %d %s %s over", it, scope, when);
    }
    return fault;
}

/* A dsfleet chooses the number itself. A dsrs can't read such a line; it has numbers for its clients, and some for each server. */
static uint32_t subscribe(struct ds_client *client, const char *scope, const char *when, int *sub) {
    const char *answer, *own = client->is_instance ? getenv("DS_SUB") : NULL;
    uint32_t fault = DS_CLIENT_BADLINE;
    if (!client->is_instance) fault = ask(client, &answer, "subscribe %s %s new", scope, when);
    if (!fault) {
        const char *last = strstr(answer, "sub ");
        *sub = last ? atoi(last + strlen("sub ")) : 0;
    } else if (client->is_instance) fault = subscribe_from(client, scope, when, own ? atoi(own) : 0, SERVER_SUBS, sub);
    else if (fault == DS_CLIENT_BADLINE) fault = subscribe_from(client, scope, when, FIRST_PUBLIC, SUBS - FIRST_PUBLIC, sub);
    if (!fault) fault = ask(client, NULL, "listen %d", *sub);
    if (!fault) set(client->used, *sub, true);
    return fault;
}

uint32_t ds_client_subscribe(struct ds_client *client, const char *pattern, unsigned kinds, int *sub) {
    uint32_t fault;
    char *scope = scope_of(client, pattern, kinds, &fault);
    if (scope) fault = subscribe(client, scope, "first", sub);
    if (!fault) set(client->watched, *sub, false);
    free(scope);
    return fault;
}

uint32_t ds_client_check(struct ds_client *client, int sub, const char **items) {
    return ask(client, items, "check %d %d", sub, MOST);
}

/* Reads `NAME KIND OWNER EPOCH.SEQ =` and a value, or `-`. `head` is a copy of the front, since sscanf looks for the end of its text. */
static bool read_change(const char *line, const char *head, struct ds_item *item) {
    char kind[6], mark;
    int used = 0;
    int parts = sscanf(head, "%64s %5s %64s %" SCNu32 ".%" SCNu32 " %c%n", item->name, kind, item->owner, &item->epoch, &item->seq, &mark,
                       &used);
    if (parts != 6 || !(item->value.kind = kind_of(kind))) return false;
    item->kind = mark == '=' ? DS_ITEM_PUT : DS_ITEM_GONE;
    bool is_short = item->value.kind == DS_LABEL || item->value.kind == DS_U32;
    return mark == '-' || (line[used] == ' ' && read_value((is_short ? head : line) + used + 1, &item->value));
}

bool ds_item_read(const char **lines, struct ds_item *item) {
    const char *line = *lines, *end = strchr(line, '\n');
    if (!end) return false;
    char head[HEAD];
    *item = (struct ds_item){.kind = DS_ITEM_FLOOR, .line = line, .length = (size_t)(end - line) + 1};
    snprintf(head, sizeof head, "%.*s", (int)(item->length < HEAD ? item->length : HEAD - 1), line);
    bool is_floor = sscanf(head, "! %64s %" SCNu32, item->owner, &item->epoch) == 2;
    if (!is_floor && !read_change(line, head, item)) return false;
    *lines = end + 1;
    return true;
}

/* Takes the first notice whose subscription isn't a watch's. */
static bool take_notice(struct ds_client *client, int *sub) {
    for (int it = 0; it < SUBS; it++) {
        if (!has(client->noticed, it) || has(client->watched, it)) continue;
        set(client->noticed, it, false);
        *sub = it;
        return true;
    }
    return false;
}

uint32_t ds_client_notice(struct ds_client *client, int timeout, int *sub) {
    int64_t end = end_of(timeout);
    for (;;) {
        sort(client);
        if (take_notice(client, sub)) return 0;
        uint32_t fault = wait_until(client, end);
        if (fault) return fault;
    }
}

/* ---- a service by its label ---- */

/* Connects to the socket of an endpoint. The descriptor waits, as those of socket do. */
static int connect_to(const struct ds_client *client, struct ds_endpoint endpoint) {
    char path[sizeof client->path + 40];
    snprintf(path, sizeof path, "%s.d/%" PRIu32 ".%u", client->path, endpoint.generation, endpoint.slot);
    int file = connected(path, SOCK_SEQPACKET);
    if (file >= 0) fcntl(file, F_SETFL, fcntl(file, F_GETFL) & ~O_NONBLOCK);
    return file;
}

/* Makes one attempt. DS_NOTFOUND: another may succeed. An instance that has just died leaves a label or a socket that nobody serves. */
static uint32_t find(struct ds_client *client, const char *label, struct ds_endpoint *endpoint, int *file) {
    struct ds_value value;
    uint32_t fault = client->file < 0 ? ds_client_reconnect(client) : 0;
    if (!fault) fault = ds_client_retrieve(client, label, DS_LABEL, &value);
    if (fault) return fault;
    *endpoint = value.endpoint;
    *file = connect_to(client, value.endpoint);
    if (*file >= 0) return 0;
    bool may_come = errno == ENOENT || errno == ECONNREFUSED || errno == EAGAIN;
    return may_come ? judge(client, "refused notfound\n") : fail(client, DS_CLIENT_LOST);
}

uint32_t ds_client_connect(struct ds_client *client, const char *label, struct ds_endpoint *endpoint, int *file) {
    int64_t end = end_of(client->timeout);
    int pause = LEAST_PAUSE;
    uint32_t fault;
    bool may_come;
    do {
        fault = find(client, label, endpoint, file);
        may_come = fault == DS_NOTFOUND || (fault == DS_CLIENT_LOST && client->file < 0 && !client->is_instance);
    } while (may_come && pause_until(end, &pause));
    return fault;
}

/* ---- watches ---- */

uint32_t ds_watch_open(struct ds_watch **watch, struct ds_client *client, const char *pattern, unsigned kinds,
                       const struct ds_cursor *from) {
    uint32_t fault;
    char *scope = scope_of(client, pattern, kinds, &fault);
    *watch = scope ? calloc(1, sizeof **watch) : NULL;
    if (!*watch) {
        free(scope);
        return fault ? fault : fail(client, DS_CLIENT_NOMEMORY);
    }
    **watch = (struct ds_watch){.client = client, .scope = scope};
    if (from) {
        (*watch)->cursor = (*watch)->returned = *from;
        (*watch)->has_cursor = (*watch)->has_returned = true;
    }
    return 0;
}

/* The subscription stays until the connection ends, and its notices aren't reported. A dsrs may get the number for another one. */
void ds_watch_close(struct ds_watch *watch) {
    if (!watch) return;
    if (watch->opened == watch->client->opened) {
        set(watch->client->used, watch->sub, false);
        set(watch->client->noticed, watch->sub, false);
    }
    free(watch->items.bytes);
    free(watch->scope);
    free(watch);
}

bool ds_watch_cursor(const struct ds_watch *watch, struct ds_cursor *cursor) {
    *cursor = watch->returned;
    return watch->has_returned;
}

/* Takes the next item at hand. After the last one, the cursor is that of all items returned. */
static bool take_item(struct ds_watch *watch, struct ds_item *item) {
    if (watch->is_anew) {
        watch->is_anew = false;
        *item = (struct ds_item){.kind = DS_ITEM_ANEW};
        return true;
    }
    if (!watch->at) return false;
    if (ds_item_read(&watch->at, item)) return true;
    watch->at = NULL;
    watch->returned = watch->cursor;
    watch->has_returned = true;
    return false;
}

/* Keeps the items of an answer, whose last line is `WORD COUNT INCARNATION POSITION`. */
static uint32_t keep_items(struct ds_watch *watch, const char *answer, bool is_snapshot) {
    size_t length = strlen(answer), last = length - 1;
    unsigned count;
    while (last && answer[last - 1] != '\n') last--;
    struct ds_cursor *cursor = &watch->cursor;
    int parts = sscanf(answer + last, "%*s %u %" SCNu64 " %" SCNu64, &count, &cursor->incarnation, &cursor->position);
    clear(&watch->items);
    if (parts != 3) return fail(watch->client, DS_CLIENT_OTHER);
    if (!append(&watch->items, answer, length)) return fail(watch->client, DS_CLIENT_NOMEMORY);
    watch->at = watch->items.bytes;
    watch->has_cursor = true;
    watch->is_anew = is_snapshot;
    watch->is_due = !is_snapshot && count == MOST;
    return 0;
}

static bool is_lost_cursor(uint32_t fault) { return fault == DS_OLDCURSOR || fault == DS_AHEAD || fault == DS_BEHIND; }

/* Fetches the items after the cursor, or a snapshot if the store doesn't have these. */
static uint32_t fetch(struct ds_watch *watch) {
    struct ds_client *client = watch->client;
    struct ds_cursor at = watch->cursor;
    const char *answer;
    uint32_t fault = DS_BEHIND;
    if (watch->has_cursor)
        fault = ask(client, &answer, "since %s %" PRIu64 " %" PRIu64 " %d", watch->scope, at.incarnation, at.position, MOST);
    if (!fault) return keep_items(watch, answer, false);
    if (!is_lost_cursor(fault)) return fault;
    fault = ask(client, &answer, "snapshot %s", watch->scope);
    return fault ? fault : keep_items(watch, answer, true);
}

/* Subscribes in a connection in which the watch hasn't yet, which is opened if there is none. The subscription comes before the
 * items, so that each later change has a notice. */
static uint32_t renew(struct ds_watch *watch) {
    struct ds_client *client = watch->client;
    uint32_t fault = client->file < 0 ? ds_client_reconnect(client) : 0;
    if (fault || watch->opened == client->opened) return fault;
    fault = subscribe(client, watch->scope, "later", &watch->sub);
    if (fault) return fault;
    set(client->watched, watch->sub, true);
    watch->opened = client->opened;
    watch->is_due = true;
    return 0;
}

/* Waits for the notice of a watch. */
static uint32_t await(struct ds_watch *watch, int64_t end) {
    struct ds_client *client = watch->client;
    sort(client);
    if (!has(client->noticed, watch->sub)) return wait_until(client, end);
    set(client->noticed, watch->sub, false);
    watch->is_due = true;
    return 0;
}

uint32_t ds_watch_next(struct ds_watch *watch, int timeout, struct ds_item *item) {
    int64_t end = end_of(timeout);
    int pause = LEAST_PAUSE;
    while (!take_item(watch, item)) {
        uint32_t fault = renew(watch);
        if (!fault) fault = watch->is_due ? fetch(watch) : await(watch, end);
        bool may_come = fault == DS_CLIENT_LOST && !watch->client->is_instance;
        if (fault && !(may_come && pause_until(end, &pause))) return fault;
        if (!fault) pause = LEAST_PAUSE;
    }
    return 0;
}

/* ---- instances ---- */

uint32_t ds_instance_open(struct ds_client **instance, int timeout) {
    const char *file = getenv("DS_FD"), *endpoint = getenv("DS_ENDPOINT"), *folder = getenv("DS_FOLDER");
    struct ds_endpoint own;
    *instance = NULL;
    errno = EBADF;
    if (!file || !endpoint || !folder || !read_endpoint(endpoint, &own)) return DS_CLIENT_LOST;
    struct ds_client *made = client_new(timeout);
    if (!made) return DS_CLIENT_NOMEMORY;
    made->file = atoi(file);
    made->endpoint = own;
    made->is_instance = made->acts = true;
    made->opened = 1;
    snprintf(made->path, sizeof made->path, "%.*s", (int)strlen(folder) - 2, folder); /* without `.d` */
    fcntl(made->file, F_SETFD, FD_CLOEXEC);
    *instance = made;
    return 0;
}

struct ds_endpoint ds_instance_endpoint(const struct ds_client *instance) { return instance->endpoint; }

int ds_instance_listener(void) {
    const char *file = getenv("DS_LISTEN");
    return file ? atoi(file) : -1;
}

uint32_t ds_instance_wait(struct ds_client *instance, int milliseconds) {
    int64_t end = end_of(milliseconds);
    uint32_t fault = 0;
    while (!fault) {
        sort(instance);
        fault = wait_until(instance, end);
    }
    if (fault == DS_CLIENT_TIMEOUT) sort(instance);
    return fault == DS_CLIENT_TIMEOUT ? 0 : fault;
}

uint32_t ds_instance_beat(struct ds_client *instance) {
    if (instance->file < 0) return fail(instance, DS_CLIENT_LOST);
    if (!append(&instance->out, "beat\n", strlen("beat\n"))) return fail(instance, DS_CLIENT_NOMEMORY);
    instance->late++;
    send_out(instance);
    return 0;
}

uint32_t ds_instance_notify(const char *message) {
    const char *path = getenv("NOTIFY_SOCKET");
    struct sockaddr_un address = {.sun_family = AF_UNIX};
    if (!path || !*path) return 0;
    size_t length = strlen(path);
    errno = ENAMETOOLONG;
    if (length >= sizeof address.sun_path) return DS_CLIENT_LOST;
    memcpy(address.sun_path, path, length);
    if (*path == '@') *address.sun_path = '\0'; /* a name without a file */
    int file = socket(AF_UNIX, SOCK_DGRAM | SOCK_CLOEXEC, 0);
    if (file < 0) return DS_CLIENT_LOST;
    socklen_t used = (socklen_t)(offsetof(struct sockaddr_un, sun_path) + length + (*path != '@'));
    ssize_t put = sendto(file, message, strlen(message), MSG_NOSIGNAL, (struct sockaddr *)&address, used);
    int why = errno;
    close(file);
    errno = why;
    return put < 0 ? DS_CLIENT_LOST : 0;
}
