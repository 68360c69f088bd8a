/* One connection to a redis server. See link.h. */
#include "link.h"
#include <errno.h>
#include <hiredis/hiredis.h>
#include <netdb.h>
#include <netinet/tcp.h>
#include <stdarg.h>
#include <stdio.h>
#include <string.h>
#include <sys/socket.h>
#include <sys/un.h>
#include <unistd.h>

enum {
    READ_AT_ONCE = 1 << 14, /* bytes; a record of TLS has no more */
    MOST_READS = 64,        /* of one turn */
    PORT_TEXT = 8,          /* bytes, with the zero */
    PROBES_AFTER = 15,      /* seconds of silence; then the kernel probes the connection, */
    PROBES_EACH = 5,        /* with these seconds between two, */
    PROBES = 3              /* and ends the connection after these without an answer */
};

/* Keeps why the connection failed. Returns false. */
static bool link_failed(struct link *link, const char *words) {
    snprintf(link->said, sizeof link->said, "%s", words);
    return false;
}

/* ---- the connection ---- */

/* Begins to connect. */
static bool connect_socket(struct link *link, int family, const struct sockaddr *address, socklen_t length) {
    link->socket = socket(family, SOCK_STREAM | SOCK_NONBLOCK | SOCK_CLOEXEC, 0);
    if (link->socket < 0) return link_failed(link, strerror(errno));
    if (!connect(link->socket, address, length) || errno == EINPROGRESS) return true;
    link_failed(link, strerror(errno));
    close(link->socket);
    return false;
}

static bool connect_local(struct link *link, const char *path) {
    struct sockaddr_un address = {.sun_family = AF_UNIX};
    if (strlen(path) >= sizeof address.sun_path) return link_failed(link, "the socket's path is too long");
    memcpy(address.sun_path, path, strlen(path));
    return connect_socket(link, AF_UNIX, (struct sockaddr *)&address, sizeof address);
}

/* The kernel notices a dead peer, while no question is under way, too. */
static void set_up(int socket) {
    const struct { int level, option, value; } options[] = {
        {IPPROTO_TCP, TCP_NODELAY, 1},
        {SOL_SOCKET, SO_KEEPALIVE, 1},
        {IPPROTO_TCP, TCP_KEEPIDLE, PROBES_AFTER},
        {IPPROTO_TCP, TCP_KEEPINTVL, PROBES_EACH},
        {IPPROTO_TCP, TCP_KEEPCNT, PROBES},
    };
    for (size_t i = 0; i < sizeof options / sizeof *options; i++) {
        setsockopt(socket, options[i].level, options[i].option, &options[i].value, sizeof options[i].value);
    }
}

/* The address is in digits, so this needs no name server. */
static bool connect_host(struct link *link, const char *host, int port) {
    struct addrinfo hints = {.ai_flags = AI_NUMERICHOST | AI_NUMERICSERV, .ai_socktype = SOCK_STREAM}, *found = NULL;
    char text[PORT_TEXT];
    snprintf(text, sizeof text, "%d", port);
    int error = getaddrinfo(host, text, &hints, &found);
    if (error) return link_failed(link, gai_strerror(error));
    bool is_begun = connect_socket(link, found->ai_family, found->ai_addr, found->ai_addrlen);
    freeaddrinfo(found);
    if (is_begun) set_up(link->socket);
    return is_begun;
}

/* The name comes last: a server that refuses the name still serves. */
static void greet(struct link *link, const struct link_call *call) {
    if (call->password && call->user) link_ask(link, "AUTH %s %s", call->user, call->password);
    else if (call->password) link_ask(link, "AUTH %s", call->password);
    if (call->database) link_ask(link, "SELECT %d", call->database);
    if (call->name) link_ask(link, "CLIENT SETNAME %s", call->name);
    link->names = call->name != NULL;
    link->greetings = link->asked;
    link->asked = 0;
}

bool link_open(struct link *link, const struct link_call *call, uint64_t now) {
    link_close(link);
    bool is_begun = call->path ? connect_local(link, call->path) : connect_host(link, call->host, call->port);
    if (!is_begun) return false;
    link->reader = redisReaderCreate();
    if (!link->reader) {
        close(link->socket);
        return link_failed(link, "no memory");
    }
    if (call->tls) link->session = tls_begin(call->tls, link->socket, call->server, link->said);
    if (call->tls && !link->session) {
        link_close(link);
        return false;
    }
    link->active_at = now;
    link->watched = 0;
    link->frames = (struct frames){.length = 0};
    greet(link, call);
    return true;
}

void link_close(struct link *link) {
    if (!link->reader) return;
    link_done(link);
    tls_end(link->session);
    redisReaderFree(link->reader);
    close(link->socket);
    text_free(&link->out);
    link->reader = NULL;
    link->session = NULL;
    link->greetings = 0;
    link->writes = link->reads_first = link->quiet = false;
}

bool link_is_open(const struct link *link) { return link->reader; }

bool link_is_asked(const struct link *link) { return link->asked && !link->writes; }

bool link_waits_to_write(const struct link *link) {
    return link->writes && !(link->reads_first && tls_is_beginning(link->session));
}

/* ---- questions and answers ---- */

/* Takes a question of this length, as hiredis wrote the bytes; -1: hiredis failed. */
static void take_question(struct link *link, char *question, int length) {
    if (length > 0 && link->asked < LINK_MOST && text_put(&link->out, question, (size_t)length)) {
        link->asked++;
        link->writes = true;
    } else {
        link_failed(link, "a question couldn't be asked");
        link_close(link);
    }
    if (length > 0) redisFreeCommand(question);
}

void link_ask(struct link *link, const char *format, ...) {
    va_list given;
    char *question = NULL;
    if (!link->reader) return;
    va_start(given, format);
    int length = redisvFormatCommand(&question, format, given);
    va_end(given);
    take_question(link, question, length);
}

void link_ask_question(struct link *link, const struct question *question) {
    char *made = NULL;
    const char **arguments = (const char **)question->argument;
    if (!link->reader) return;
    int length = redisFormatCommandArgv(&made, question->count, arguments, question->length);
    take_question(link, made, length);
}

void question_put(struct question *question, const char *bytes, size_t length) {
    question->argument[question->count] = bytes;
    question->length[question->count++] = length;
}

void question_put_text(struct question *question, const char *text) { question_put(question, text, strlen(text)); }

/* Keeps an answer of the round. An error of a greeting ends the connection, except that of the name. */
static bool keep_answer(struct link *link, redisReply *answer) {
    if (!link->greetings && link->came < link->asked) {
        link->answers[link->came++] = answer;
        return true;
    }
    if (!link->greetings) {
        link_failed(link, "the server answers what wasn't asked");
        freeReplyObject(answer);
        return false;
    }
    bool is_name = link->names && link->greetings == 1;
    bool good = answer->type != REDIS_REPLY_ERROR || is_name;
    if (!good) link_failed(link, answer->str);
    freeReplyObject(answer);
    link->greetings--;
    return good;
}

static enum io_word send_bytes(struct link *link, size_t *done) {
    if (link->session) return tls_write(link->session, link->out.bytes, link->out.length, done, link->said);
    ssize_t sent = send(link->socket, link->out.bytes, link->out.length, MSG_NOSIGNAL);
    *done = sent > 0 ? (size_t)sent : 0;
    if (sent >= 0) return IO_DONE;
    if (errno == EAGAIN || errno == EINTR) return IO_WRITES_FIRST;
    link_failed(link, strerror(errno));
    return IO_FAILED;
}

static enum io_word receive_bytes(struct link *link, char *bytes, size_t *done) {
    if (link->session) return tls_read(link->session, bytes, READ_AT_ONCE, done, link->said);
    ssize_t came = recv(link->socket, bytes, READ_AT_ONCE, 0);
    *done = came > 0 ? (size_t)came : 0;
    if (came > 0) return IO_DONE;
    if (came < 0 && (errno == EAGAIN || errno == EINTR)) return IO_READS_FIRST;
    link_failed(link, came ? strerror(errno) : "Server closed the connection");
    return IO_FAILED;
}

static bool write_some(struct link *link, uint64_t now) {
    enum io_word word = IO_DONE;
    if (!link->writes || (link->quiet && !link_waits_to_write(link))) return true;
    while (word == IO_DONE && link->out.length) {
        size_t done;
        word = send_bytes(link, &done);
        text_drop(&link->out, done);
        if (done) link->active_at = now;
    }
    link->writes = word != IO_DONE;
    link->reads_first = word == IO_READS_FIRST;
    return word != IO_FAILED;
}

/* Reads what has arrived, up to a megabyte. A quiet link has nothing to read. */
static bool read_bytes(struct link *link, uint64_t now) {
    char bytes[READ_AT_ONCE];
    for (int times = 0; times < MOST_READS && !link->quiet; times++) {
        size_t done;
        enum io_word word = receive_bytes(link, bytes, &done);
        if (word == IO_FAILED) return false;
        link->quiet = word != IO_WRITES_FIRST && done < sizeof bytes;
        link->writes |= word == IO_WRITES_FIRST;
        if (word == IO_WRITES_FIRST) return true;
        if (!done) continue;
        link->active_at = now;
        link->received += done;
        if (!frames_take(&link->frames, bytes, done)) return link_failed(link, "the server answers more than was asked for");
        if (redisReaderFeed(link->reader, bytes, done) != REDIS_OK) return link_failed(link, link->reader->errstr);
    }
    return true;
}

static bool read_some(struct link *link, uint64_t now) {
    if (!read_bytes(link, now)) return false;
    for (;;) {
        void *answer = NULL;
        if (redisReaderGetReply(link->reader, &answer) != REDIS_OK) return link_failed(link, link->reader->errstr);
        if (!answer) return true;
        if (!keep_answer(link, answer)) return false;
    }
}

/* Fails the link if answers have been missing for longer than the server may take. Returns whether it failed. */
static bool fail_if_silent(struct link *link, uint64_t now) {
    uint64_t limit = link->blocks + LINK_SILENCE;
    bool is_late = link->begun && now > link->begun + limit + link->received / LINK_SLOWEST;
    if (now <= link->active_at + limit && !is_late) return false;
    link_failed(link, is_late && link->received ? "the server answers too slowly" : "the server answers nothing");
    return true;
}

enum link_state link_turn(struct link *link, uint64_t now) {
    if (!link->reader) return LINK_LOST;
    if (!write_some(link, now) || !read_some(link, now)) {
        link_close(link);
        return LINK_LOST;
    }
    if (!link->asked) {
        link->active_at = now;
        return LINK_IDLE;
    }
    if (!link->begun && !link->writes) link->begun = now;
    if (link->came == link->asked && !link->greetings) return LINK_ANSWERED;
    if (!fail_if_silent(link, now)) return LINK_WAITS;
    link_close(link);
    return LINK_LOST;
}

void link_done(struct link *link) {
    for (unsigned i = 0; i < link->came; i++) freeReplyObject(link->answers[i]);
    link->asked = link->came = link->blocks = 0;
    link->begun = link->received = 0;
}
