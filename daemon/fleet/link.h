/* One connection to a redis server, which takes rounds of questions and never waits. A server that answers nothing for
 * LINK_SILENCE counts as gone. hiredis writes the questions and parses the answers, and TLS is OpenSSL's. Used
 * within the library. */
#ifndef DS_FLEET_LINK_H
#define DS_FLEET_LINK_H

#include "frames.h"
#include "text.h"
#include "tls.h"
#include <stdint.h>

struct redisReader;
struct redisReply;

enum {
    LINK_MOST = 40,        /* questions of one round */
    LINK_WORDS = TLS_SAID, /* bytes of a server's error, with the terminating zero */
    LINK_ARGUMENTS = 64,   /* of one question */
    LINK_SILENCE = 5000,   /* milliseconds in which something of an answer has to come, */
    LINK_SLOWEST = 16      /* and all of a round, with one more for each of these bytes received */
};

/* How a server is called. */
struct link_call {
    const char *path;                   /* the path of a socket; NULL: */
    const char *host;                   /* the address in digits */
    int port;                           /* the port of the address */
    const struct tls_files *tls;        /* NULL: without TLS */
    const char *server;                 /* with TLS: the name in the server's certificate */
    const char *user, *password, *name; /* NULL: there is none. name: of the connection, in CLIENT LIST */
    int database;
};

/* A connection, and the round in flight. Begins with zeros. */
struct link {
    struct redisReader *reader;            /* NULL: there is no connection */
    int socket;
    struct ssl_st *session;                /* the session of TLS, or NULL */
    struct text out;                       /* questions that aren't sent yet */
    struct redisReply *answers[LINK_MOST]; /* those of this round that came */
    unsigned asked, came, greetings;       /* greetings: how many answers come before this round's */
    bool names;                            /* the last greeting is the connection's name */
    bool writes;                           /* not all that was asked could be sent yet */
    bool reads_first;                      /* while TLS begins: nothing can be sent before more arrives */
    bool quiet;                            /* everything received is read; the poller clears this flag when more arrives */
    struct frames frames;                  /* the lengths that the received bytes announce */
    uint64_t begun;                        /* when all of this round had been sent, in milliseconds; 0: not yet */
    size_t received;                       /* bytes of this round */
    uint64_t active_at;                    /* when bytes were last sent or received, or nothing was asked, in milliseconds */
    uint32_t watched;                      /* the events that the poller watches the socket for; 0: none yet */
    unsigned blocks;                       /* milliseconds for which the server may hold this round back before the answer */
    char said[LINK_WORDS];                 /* why the connection went, or the error of a greeting */
};

enum link_state {
    LINK_IDLE,     /* no round is under way */
    LINK_WAITS,    /* answers are missing */
    LINK_ANSWERED, /* all answers of this round are in link->answers */
    LINK_LOST      /* the connection is gone, or there was none; link->said says why */
};

/* A question as its arguments, which the caller keeps. Begins with zeros. */
struct question {
    const char *argument[LINK_ARGUMENTS];
    size_t length[LINK_ARGUMENTS];
    int count;
};

void question_put(struct question *question, const char *bytes, size_t length);
void question_put_text(struct question *question, const char *text);

/* Begins to connect, and sends the greetings: AUTH, SELECT, CLIENT SETNAME. Doesn't wait. */
bool link_open(struct link *link, const struct link_call *call, uint64_t now);
/* Asks one question of a round, in the format of redisAppendCommand. Arguments are copied. */
void link_ask(struct link *link, const char *format, ...);
void link_ask_question(struct link *link, const struct question *question);
/* Writes and reads as much as goes without waiting. */
enum link_state link_turn(struct link *link, uint64_t now);
/* Ends a round, and frees the answers. */
void link_done(struct link *link);
/* Ends the connection. `said` stays. */
void link_close(struct link *link);
bool link_is_open(const struct link *link);
/* Whether a round was sent that isn't ended. */
bool link_is_asked(const struct link *link);
/* Whether the socket is to be watched until more can be sent. */
bool link_waits_to_write(const struct link *link);

#endif
