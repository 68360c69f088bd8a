/* dsask: sends lines to a dsrs or a dsfleet, and prints the answers. */
#include "answers.h"
#include "client.h"
#include "text.h"
#include "usage.h"
#include <errno.h>
#include <poll.h>
#include <signal.h>
#include <stdio.h>
#include <stdlib.h>
#include <string.h>
#include <sys/un.h>
#include <unistd.h>

enum { REFUSED = 1 /* a status */ };
enum {
    PIECE = 1 << 16, /* bytes that are read at a time */
    ALL_KINDS = 15,
    FIRST_SUB = 120, /* the first that is tried if none is named */
    SUBS = 128
};

static const char help[] =
    "usage: dsask SOCKET [LINE ..]\n"
    "       dsask --watch PATTERN [--kinds KINDS] [--sub SUB] SOCKET\n"
    "\n"
    "Sends lines to the dsrs or the dsfleet that serves SOCKET, and prints the answers. Without a LINE they are read from\n"
    "standard input; at a terminal, `help` lists them, and notices are printed as they come. A last line may lack its\n"
    "newline. `dsask SOCKET status` prints a table of the services of a dsrs.\n"
    "\n"
    "  --watch PATTERN  prints what the store has under a pattern, and then each change, until it is ended\n"
    "  --kinds KINDS    of these kinds, the sum of 1 label, 2 u32, 4 str and 8 mem: 15\n"
    "  --sub SUB        by this subscription; else by the first of 120 to 127 that it may use\n"
    "  --version        prints the version\n"
    "  -h, --help       prints this\n"
    "\n"
    "Statuses: 0 all is answered, 1 a line was refused, or nobody serves SOCKET, or it hung up before it answered, 2 usage.\n";

static const char greeting[] = "dsask: `help` lists the lines, ^D ends\n";

static const char lines[] =
    "retrieve NAME KIND        what is published\n"
    "nameof ENDPOINT           who has an endpoint\n"
    "show, all                 everything\n"
    "subscribe SUB \"PATTERN\" KINDS first|later new|over\n"
    "check SUB MAX             what is new under it\n"
    "listen SUB                asks for notices\n"
    "status                    the services of a dsrs\n"
    "log                       what happened to them\n"
    "service up LABEL          starts one\n"
    "service down LABEL        stops one\n"
    "service refresh LABEL     replaces its process\n"
    "service restart LABEL     starts one that waits or was given up\n"
    "state, metrics            how a dsfleet is doing\n";

struct options { struct watching watching; const char *socket; char **line; int count; };

/* A client, and how many of its answers are missing. */
struct asking {
    struct ds_client *client;
    bool reads;            /* standard input hasn't ended */
    bool prompts;
    size_t owed;
    char last;             /* the last byte of the lines */
    struct printing printing;
    struct watching *watching; /* or NULL */
};

static int out_of_memory(void) {
    fprintf(stderr, "dsask: out of memory\n");
    return REFUSED;
}

/* ---- words ---- */

static int finish(const struct usage *usage, int count, char **words, struct options *options) {
    if (!count) return usage_refuse(usage, "a socket is wanted");
    options->socket = words[0];
    options->line = words + 1;
    options->count = count - 1;
    if (options->watching.pattern && options->count) return usage_refuse(usage, "no line comes with --watch");
    if (strlen(options->socket) >= sizeof((struct sockaddr_un *)0)->sun_path) return usage_refuse(usage, "the socket's path is too long");
    return GO_ON;
}

/* Lines may begin with a dash, so options come first. */
static int read_words(int count, char **words, struct options *options) {
    struct watching *watching = &options->watching;
    size_t kinds = ALL_KINDS, sub = SUBS;
    const struct option_row rows[] = {
        {"watch", .text = &watching->pattern},
        {"kinds", .number = &kinds, .least = 1, .most = ALL_KINDS, .fault = "kinds are 1 to 15"},
        {"sub", .number = &sub, .most = SUBS - 1, .fault = "a subscription is 0 to 127"},
        {0},
    };
    const struct usage usage = {.name = "dsask", .help = help, .version = "dsask " DS_VERSION "\n", .rows = rows, .options_first = true};
    int first, status = usage_read(&usage, count, words, &first);
    if (status != GO_ON) return status;
    watching->kinds = (int)kinds;
    watching->sub = sub < SUBS ? (int)sub : FIRST_SUB;
    watching->last_sub = sub < SUBS ? (int)sub : SUBS - 1;
    return finish(&usage, count - first, words + first, options);
}

/* ---- asking ---- */

/* Gives lines to be sent, of which each whole one is owed an answer. */
static bool give(struct asking *asking, const char *bytes, size_t length) {
    for (size_t i = 0; i < length; i++) asking->owed += bytes[i] == '\n';
    if (length) asking->last = bytes[length - 1];
    return !ds_client_put(asking->client, bytes, length);
}

/* At a terminal, `help` is answered here, and the answer to `status` is a table unless lines are typed ahead. */
static bool read_input(struct asking *asking) {
    char some[PIECE];
    ssize_t length = read(STDIN_FILENO, some, sizeof some);
    if (length > 0 && asking->prompts && length == 5 && !memcmp(some, "help\n", 5)) return !fputs(lines, stdout) || !fflush(stdout);
    asking->printing.as_table = !asking->owed && asking->prompts && length == 7 && !memcmp(some, "status\n", 7);
    if (length > 0) return give(asking, some, (size_t)length);
    asking->reads = false;
    return asking->last == '\n' || give(asking, "\n", 1);
}

/* Takes the answers that have come whole. Returns false if memory ran out, or nobody reads the output. */
static bool take_answers(struct asking *asking) {
    const char *answer;
    size_t length;
    while ((length = ds_client_take(asking->client, &answer)) > 0) {
        struct text next = {0};
        asking->owed -= !answer_is_notice(answer, length);
        bool fine = asking->watching ? watching_take(asking->watching, answer, length, &next)
                                     : printing_put(&asking->printing, answer, length);
        fine = fine && give(asking, next.bytes, next.length);
        text_free(&next);
        if (!fine) return false;
    }
    return true;
}

/* Sends and receives. Returns false if the other end hung up, too. */
static bool exchange(struct asking *asking) {
    uint32_t fault = ds_client_turn(asking->client);
    if (fault) errno = fault == DS_CLIENT_LOST ? ECONNRESET : ENOMEM;
    return !fault && take_answers(asking);
}

static void prompt(const struct asking *asking) {
    if (!asking->prompts || asking->owed) return;
    fputs("> ", stdout);
    fflush(stdout);
}

/* Runs until each line has an answer, and standard input has ended. */
static bool run(struct asking *asking) {
    prompt(asking);
    while (asking->owed || asking->reads || asking->watching) {
        struct pollfd polled[] = {{.fd = ds_client_file(asking->client), .events = ds_client_events(asking->client)},
                                  {.fd = asking->reads ? STDIN_FILENO : -1, .events = POLLIN}};
        if (poll(polled, 2, -1) < 0) return false;
        if (polled[0].revents) {
            if (!exchange(asking)) return false;
            prompt(asking);
        }
        if (!polled[1].revents) continue;
        if (!read_input(asking)) return false;
        if (asking->reads) prompt(asking);
    }
    return true;
}

static int ask(const struct options *options, struct asking *asking) {
    struct text first = {0};
    bool fine = !options->watching.pattern || (watching_begin(asking->watching, &first) && give(asking, first.bytes, first.length));
    text_free(&first);
    for (int i = 0; fine && i < options->count; i++)
        fine = give(asking, options->line[i], strlen(options->line[i])) && give(asking, "\n", 1);
    if (!fine) return out_of_memory();
    asking->printing.as_table = options->count == 1 && !strcmp(options->line[0], "status");
    if (run(asking)) return asking->printing.refused || (asking->watching && asking->watching->refused) ? REFUSED : DONE;
    if (errno != EPIPE) fprintf(stderr, "dsask: %s: %s\n", options->socket, errno == ECONNRESET ? "it hung up" : strerror(errno));
    return REFUSED;
}

int main(int count, char **words) {
    struct options options = {0};
    int status = read_words(count, words, &options);
    if (status != GO_ON) return status;
    signal(SIGPIPE, SIG_IGN);
    struct asking asking = {.last = '\n'};
    if (ds_client_open(&asking.client, options.socket, -1)) {
        fprintf(stderr, "dsask: %s: %s\n", options.socket, strerror(errno));
        return REFUSED;
    }
    asking.watching = options.watching.pattern ? &options.watching : NULL;
    asking.reads = !options.count && !asking.watching;
    asking.prompts = asking.reads && isatty(STDIN_FILENO) && isatty(STDOUT_FILENO);
    if (asking.prompts) fputs(greeting, stderr);
    status = ask(&options, &asking);
    ds_client_close(asking.client);
    return status;
}
