/* Keeps a store in step with those of other hosts over a redis stream: it appends to the stream what takes effect in
 * the store, and merges what others appended. docs/reference/fleet.md draws it.
 *
 * The store behind the handle is proved; this carrier is tested. If no two changes contradict each other, stores that
 * got the same items agree, in whatever order and however often the items arrived.
 *
 * A fleet owns three descriptors (the poller, and two that it watches), two connections, a third one while it asks a
 * Sentinel, the text that the server hasn't acknowledged yet, and a second store, for what this one refuses. While it
 * looks up the host of its URL it has a thread, which takes no signal and only calls getaddrinfo; no call waits for
 * that thread, and it doesn't use the handle. ds_fleet_open copies its arguments, except the handle: the caller keeps
 * that open until ds_fleet_close. At most one thread at a time makes a call on the handle or its fleet. The calls of
 * a fleet send requests to the store, so fetch the text of an answer before you make one. Nothing is global, and the
 * caller has to ignore SIGPIPE. The server is redis 7 or newer, the system Linux. */
#ifndef DS_FLEET_H
#define DS_FLEET_H

#include "ds.h"
#include <stdbool.h>

#ifdef __cplusplus
extern "C" {
#endif

struct ds_fleet;

/* The outcome of a call. ds_fleet_word spells it in lower case, without its prefix. */
enum ds_fleet_word {
    DS_FLEET_INSTEP, /* everything that took effect is in the stream, and everything from the stream is merged */
    DS_FLEET_LATE,   /* the patience of a step is over: call it again */
    DS_FLEET_AWAY,   /* there is no server, or the connection broke: a later step connects again, and nothing is lost */
    DS_FLEET_DENIED, /* the server answered by an error, or too few replicas have an entry: the state has why in `said`. A later step
                        tries again, and nothing is lost */
    DS_FLEET_NOROOM, /* out of memory: call again, nothing is lost. Of ds_fleet_open also: the pattern compiles to too much */
    DS_FLEET_CLOSED, /* no store is open in the handle */
    DS_FLEET_BADURL, /* of ds_fleet_open alone: the URL or the password can't be used, or there are certificates without TLS */
    DS_FLEET_NOTLS,  /* of ds_fleet_open alone: the URL asks for TLS, and the library was built without it */
    DS_FLEET_BADNAME,  /* of ds_fleet_open: the stream's name. Of a step: the server is of a cluster, and the name has no {TAG} by which all
                          keys are on one node; the step appends nothing, and a later one looks again */
    DS_FLEET_BADSCOPE, /* of ds_fleet_open: the scope can't be read. Of a step: the stream has another scope; the step appends nothing, and
                          a later one looks again */
    DS_FLEET_SYSTEM,   /* of ds_fleet_open alone; errno says why */
    DS_FLEET_BADTLS    /* of ds_fleet_open alone: the files of certificates can't be used; `tell` got the reason */
};

enum { DS_FLEET_KEEP = 1000, DS_FLEET_WITHIN = 1000, DS_FLEET_ID = 48, DS_FLEET_SAID = 256 /* bytes of a text, with its zero */ };

/* A function that gets one line of the log, without its newline, during ds_fleet_open or ds_fleet_step. It makes no call on the handle or
 * the fleet. */
typedef void ds_fleet_tell(void *context, const char *line);

struct ds_fleet_options {
    const char *url;      /* redis://[[USER]:PASSWORD@]HOST[:PORT][,HOST[:PORT]..][/DATABASE]: servers, tried in order;
                             redis-sentinel://[[USER]:PASSWORD@]HOST[:PORT][,..]/NAME[/DATABASE]: Sentinels, asked for the master NAME;
                             or unix://[[USER]:PASSWORD@]/PATH. Each may end with ?db=DATABASE. Up to 8 hosts. With rediss:// and
                             rediss-sentinel:// TLS is spoken, if the library was built with -DDS_FLEET_TLS and is linked with OpenSSL */
    const char *stream;   /* the beginning of the names of its three keys: 1 to 128 printable ASCII characters, without spaces;
                             NULL: "ds" */
    const char *pattern;  /* with kinds, the scope: the names that it matches whole. All on one stream need the same scope: else badscope */
    uint8_t kinds;        /* a sum of enum ds_kinds; 0: the scope is everything, and pattern may be anything */
    long keep;            /* a stream with more entries than this is compacted; 0: DS_FLEET_KEEP */
    ds_fleet_tell *tell;  /* gets a line `WORD: TEXT` for each key whose item is refused or can't be read, for each server met or lost, for
                             what a server denies, when others differ or data was lost, and for each compaction; may be NULL */
    void *context;        /* the first argument of tell */
    const char *password; /* instead of the URL's; NULL: the URL's. Less than 256 bytes */
    int replicas;         /* how many replicas have to have a change before it counts as acknowledged; 0: none */
    int within;           /* milliseconds that they may take before a step returns DENIED; 0: DS_FLEET_WITHIN */
    const char *ca;       /* with TLS, PEM files, which are read at each connection: of the CAs that certify servers; NULL: the system's CAs */
    const char *certificate, *key; /* those that are shown to the server; NULL: none */
};

/* Joins the store of the handle to a stream, without waiting: the first step connects to the server, and the first
 * steps append what the store holds already. Returns DS_FLEET_INSTEP; then close *fleet by ds_fleet_close. Else *fleet is
 * NULL, and the word says why: CLOSED, BADURL, NOTLS, BADTLS, BADNAME, BADSCOPE, NOROOM or SYSTEM. */
enum ds_fleet_word ds_fleet_open(struct ds_fleet **fleet, struct ds_handle *store, const struct ds_fleet_options *options);

/* Appends what is new, and merges what others appended. It waits until the store is in step, for at most `patience`
 * milliseconds; with 0 it doesn't wait. A step that waits, and has just appended all news, leaves what arrived meanwhile to
 * the next one, which the poller reports. The first DS_FLEET_INSTEP means that the store has caught up. Serve no client
 * before that: a publisher that doesn't see its own earlier versions would use their numbers again. DS_FLEET_BADSCOPE,
 * DS_FLEET_BADNAME and DS_FLEET_CLOSED end the step at once, so pause before the next one. Call it when the poller is readable,
 * and after each change of the store. */
enum ds_fleet_word ds_fleet_step(struct ds_fleet *fleet, unsigned patience);

/* Returns a descriptor that becomes readable when a step has something to do: others appended something, the server
 * answered, or a second passed. It is the same one until ds_fleet_close. Wait for it, but don't read it. */
int ds_fleet_bell(const struct ds_fleet *fleet);

/* Returns a mark past everything that has taken effect in the store so far; 0 if memory runs out, or no store is open. */
uint64_t ds_fleet_mark(struct ds_fleet *fleet);
/* Returns such a mark for an answer by which the store held a change already, such as `known`. It also waits for a look at the stream
 * that begins after this call: the server may have lost that change. 0 as above. */
uint64_t ds_fleet_mark_held(struct ds_fleet *fleet);
/* Returns whether the server has acknowledged everything before the mark, so that it is in the stream and, with
 * `replicas`, that many have it. So one client may get its answer while others still change the store. */
bool ds_fleet_is_told(const struct ds_fleet *fleet, uint64_t mark);

/* Sets in owed the bit of each subscription that is owed a notice, since the last call, of items that others appended. Other bits are
 * unchanged. */
void ds_fleet_owed(struct ds_fleet *fleet, uint8_t owed[16]);

/* The state of a fleet. */
struct ds_fleet_state {
    enum ds_fleet_word word;              /* of the last step */
    bool caught_up;                       /* some step has answered DS_FLEET_INSTEP */
    uint64_t position;                    /* the position up to which the store's journal was read */
    char last[DS_FLEET_ID];               /* the last entry of the stream that was read, or 0-0 */
    uint64_t behind;                      /* milliseconds by which `last` trails the stream's last entry, measured each second while a server
                                             is met and no older entries are being read */
    uint64_t untold;                      /* bytes of lines that no server has acknowledged */
    uint64_t entries_told, entries_read;  /* entries of the stream: appended by this fleet; of others, and read by it */
    uint64_t connections, compactions;
    uint64_t unread;                      /* lines and entries from which no item could be read */
    uint64_t refused[DS_NOROOM + 1];      /* for each of enum ds_refusal: how many keys and owners have an item refused, as of then */
    unsigned differing;                   /* how many other stores held something else after they had read the same entries */
    char server[DS_FLEET_ID];             /* the run of the server that was met, or nothing */
    char said[DS_FLEET_SAID];             /* why the server last went away or denied something, in its words, or nothing */
};

void ds_fleet_state(const struct ds_fleet *fleet, struct ds_fleet_state *state);

/* Ends the connections and frees all memory; the store is unchanged, and open. The outbox isn't sent any more: step
 * until DS_FLEET_INSTEP first. NULL is allowed. */
void ds_fleet_close(struct ds_fleet *fleet);

/* Return static texts: the word in lower case, such as `instep`; the word of a refusal of enum ds_refusal, such as
 * `clash`. */
const char *ds_fleet_word(enum ds_fleet_word word);
const char *ds_fleet_refusal(uint32_t refusal);

#ifdef __cplusplus
}
#endif

#endif
