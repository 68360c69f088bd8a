/* A bridge: the parts of a fleet, each a struct and an enum of states of its own. The files of the parts begin with a
 * table each, of what becomes of a state by an event. Used within the library.
 *
 * The parts share one connection, the producer's, for one round of questions at a time. ds_fleet.c chooses the next round:
 *
 *   if                                          | the producer's next round
 *   --------------------------------------------+-------------------------------------------------
 *   the server isn't met                        | the meeting
 *   reading has a gap                           | fetching the snapshot
 *   reading is at its end, a second has passed  | anti-entropy
 *   reading is at its end, the stream is long   | compacting
 *   reading is at its end, an answer is `known` | a look, half of an anti-entropy round
 *   the outbox has something                    | producing
 *
 * A store is in step if the server is met, reading is at its end, and the outbox is empty. The bridge doesn't look for the
 * producer's answer each time that the consumer's news wakes it: that takes 6.4 system calls per change in place of 4.9,
 * and no answer arrives earlier.
 *
 * crates/fleet_rule defines what a bridge may do, and has its laws. The tables' cells are these events of its definitions:
 *
 *   part, state      | event here                            | events of the rule
 *   -----------------+---------------------------------------+--------------------------------------------------------------
 *   server: CALLED   | met                                   | IsMet, then Meets, or Ignores if the history is the same
 *   CALLED, MET      | connection lost or silent, or demoted | Disconnects
 *   producing: NEWS  | sent, added, replicated               | AsksToAdd, IsAdded, IsReplicated, GetsAcknowledged
 *                    | a part of several wasn't added        | AsksToAdd of the parts before it
 *                    | the outbox is long                    | Folds
 *   reading: BEHIND, | its entries are merged                | AsksToRead, IsRead, Consumes
 *   END              | an item fits neither store            | ConsumesPart
 *   GAP              | the snapshot is fetched               | AsksToFetch, IsFetched, TakesSnapshot, or TakesPart
 *   any              | everything is to be read once more    | Rereads; after a loss Meets
 *   compacting       | due, and written                      | AsksToCompact, IsCompacted
 *                    | another bridge was faster             | IsOnlyAdded, or Ignores if nothing was added
 *   anti-entropy     | the server lost something             | Loses before it, then IsMet, Meets
 *                    | others differ, this bridge is first   | Doubts
 *   the step         | an own change took effect             | Changes
 *                    | all held items are put into the outbox| Refills
 */
#ifndef DS_FLEET_BRIDGE_H
#define DS_FLEET_BRIDGE_H

#include "ds_fleet.h"
#include "items.h"
#include "loss.h"
#include "master.h"
#include "peers.h"

/* A round of the producer's questions. */
struct round {
    bool (*is_due)(const struct ds_fleet *fleet);
    enum ds_fleet_word (*ask)(struct ds_fleet *fleet); /* returns INSTEP, or why it can't be asked */
    enum ds_fleet_word (*answered)(struct ds_fleet *fleet);
};

extern const struct round meeting_round, fetching_round, anti_entropy_round, looking_round, compacting_round, producing_round;

/* ---- server ---- */

enum server_state {
    SERVER_AWAY,   /* no connection; `parted` says why */
    SERVER_CALLED, /* both connections are opened, and only the meeting may be asked */
    SERVER_MET     /* the meeting was answered: the other parts may ask */
};

struct server {
    enum server_state state;
    const struct round *round;                     /* the producer's; NULL: none, as in AWAY */
    struct master master;
    struct link producer, consumer;                /* open in CALLED and MET */
    enum ds_fleet_word parted;                     /* in AWAY: AWAY, or why there is no connection by choice */
    bool is_one;                                   /* in MET: the consumer has shown that it is at the producer's server, too */
    bool logs_meeting;                             /* the next meeting is logged: the log's last word on the server is that it went */
    char run[DS_FLEET_ID], history[DS_FLEET_ID];   /* the run and history of the server that was met last, or nothing */
    uint64_t pause;                                /* milliseconds of the last pause; 0: the server was of use since */
    uint64_t call_at, ask_at;                      /* in AWAY, when a server is called; when what was denied is tried again */
    char name[DS_FLEET_ID];                        /* the name of both connections */
};

enum ds_fleet_word server_open(struct ds_fleet *fleet, const struct ds_fleet_options *options);
void server_close(struct server *server);

bool server_is_connected(const struct server *server);
/* The run that the server names, or an empty text. */
const char *server_run(const struct server *server);
/* Calls a server if there is none. Returns INSTEP if both connections are open, else why not. */
enum ds_fleet_word server_call(struct ds_fleet *fleet);
/* Makes both connections anew, to the same address, which may lead to another server by now: what was read and judged may be
 * another one's, and a reading may wait for what comes after an entry of it. Returns LATE, or AWAY. */
enum ds_fleet_word server_call_again(struct ds_fleet *fleet);
/* The consumer's first round, which shows at which server it is. */
void server_ask_consumer(struct server *server);
enum ds_fleet_word server_hear_consumer(struct ds_fleet *fleet);

/* Both connections end. What got no answer is sent to the next server. */
enum ds_fleet_word server_hang_up(struct ds_fleet *fleet, enum ds_fleet_word word, const char *why);
enum ds_fleet_word server_went(struct ds_fleet *fleet, const char *why);
/* The server answered by something that is of no use, or by an error. */
enum ds_fleet_word server_protocol_error(struct ds_fleet *fleet, const char *why);
enum ds_fleet_word server_denied(struct ds_fleet *fleet, const redisReply *error);

/* Notes the history that the server names now. Returns whether it is another one than before. */
bool server_changed_history(struct server *server, const redisReply *replication);
/* Whether the stream has another scope than this bridge, and how that is refused. */
bool server_has_other_scope(const struct ds_fleet *fleet, const redisReply *scope);
enum ds_fleet_word server_refuse_scope(struct ds_fleet *fleet, const redisReply *scope);

/* ---- producing ---- */

enum producing_state { PRODUCING_NEWS, PRODUCING_ADDED };

struct producing {
    enum producing_state state;
    bool owes_all;      /* everything held is put into the outbox, once the stream is read to its end */
    size_t sent;         /* in a round, and in ADDED: bytes of the outbox that the round adds, or added */
    unsigned marks;      /* marks without news before them, acknowledged once a later write has its replicas */
    unsigned sent_marks; /* the marks that a round is about, or was about */
    unsigned parts;     /* in a round, or of writing a snapshot: the entries that it adds */
    int replicas;       /* how many replicas have to have each entry; 0: none */
    int within;         /* milliseconds in which the replicas are to have an entry */
    uint64_t wait_end;  /* when the time of the replicas is over */
    uint64_t acknowledged; /* bytes */
    struct trail trail; /* the entries added */
};

void producing_cut(struct producing *producing);
/* For a compaction, whose snapshot has everything held: whether one question can add the whole outbox; puts that to the
 * question, an argument for each entry; and notes that these ids are the entries'. */
bool producing_may_add_all(const struct ds_fleet *fleet);
void producing_put_all(struct ds_fleet *fleet, struct question *question);
void producing_added_all(struct ds_fleet *fleet, const struct redisReply *ids);
bool producing_has_news(const struct ds_fleet *fleet);
/* Notes a mark past everything gathered. Entries of others, or of an earlier run, may lack replicas: then the mark is acknowledged
 * once a later write has them. */
void producing_mark(struct ds_fleet *fleet);

/* ---- reading ---- */

enum reading_state {
    READING_BEHIND, /* there may be entries that aren't read: a reading doesn't wait for more */
    READING_END,    /* everything that was there is read: a reading waits for more */
    READING_GAP     /* the snapshot is to be fetched first */
};

struct reading {
    enum reading_state state;
    struct entry_id last;       /* the last entry read, */
    struct text said;           /* and its fields, one a line; nothing: that is unknown, say since `last` is a snapshot's */
    struct entry_id read_up_to; /* all entries up to this id are read, or went before; 0-0, or above last */
    struct entry_id passed;     /* the `at` of a snapshot that isn't to be fetched again: of no entry there ever was, or with no items */
    struct entry_id merged;     /* the `at` of the snapshot that was merged last; 0-0: none was */
    struct trail trail;         /* the entries read */
};

/* The consumer's round. */
void reading_ask(struct ds_fleet *fleet);
enum ds_fleet_word reading_answered(struct ds_fleet *fleet);
void reading_cut(struct reading *reading);

/* ---- compacting ---- */

enum compacting_state { COMPACTING_RESTS, COMPACTING_WATCHES, COMPACTING_WRITES };

struct compacting {
    enum compacting_state state; /* RESTS, but in a round of compacting */
    long keep, length;           /* a stream of more entries than keep is compacted; length: of the stream, as last read */
    struct entry_id at;          /* in WRITES: the entry up to which the snapshot goes that is being written */
    struct entry_id written;     /* the entry up to which the last written snapshot goes; 0-0: none was written */
    uint64_t due_at;             /* no sooner than this */
};

/* ---- looking ---- */

/* Marks that wait for a look at the stream, since they are of changes that the store held already. Looks are counted from 1. */
struct looking {
    uint64_t asked;    /* the last look that was asked, */
    uint64_t gathered; /* bytes that had been gathered when the last look was asked */
    uint64_t wanted;   /* the last look for which a mark waits */
    uint64_t good;     /* a look that found no loss, 0: none; it counts once the server acknowledged, */
    uint64_t good_at;  /* this many of all bytes gathered */
    uint64_t seen;     /* the last look that counts */
};

/* Returns the number of a look that isn't asked yet. */
uint64_t looking_mark(struct looking *looking);
/* Whether this look, or a later one, found no loss, and the server acknowledged what was gathered before it. */
bool looking_has_seen(const struct looking *looking, uint64_t look, uint64_t acknowledged);

/* ---- anti-entropy ---- */

enum { PROBES = 4 /* entries that have to be there: a stream that took the place of another one lacks one of them */ };

struct anti_entropy {
    uint64_t due_at;
    struct stock stock;
    struct entry_id asked;                /* the last entry read at the last look */
    struct entry_id compared;             /* the last entry read at the last round of digests */
    struct entry_id newest;               /* the newest entry of the stream at the last look */
    struct entry_id probes[PROBES];       /* the entries that a round looks for */
    uint64_t digested;                    /* the store's position at the last digest of others' entries, or at rest; not_digested: there is none */
    struct digest marked;                 /* the digest up to the entry that this bridge marked last; mark: 0, there is none */
    uint64_t merges;                      /* the merges of the store when `marked` was taken */
    uint64_t marked_at;                   /* when an entry was last marked here, or a digest taken at another one's mark */
    unsigned long long beat;              /* the beat of the digests that are published */
    unsigned rest, wait;                  /* rounds until it sends all again to those that differ, and how many these last were */
    struct peers peers;
};

/* The entries for which the next look will look; 0-0 where there are fewer. */
void anti_entropy_probes(const struct ds_fleet *fleet, struct entry_id ids[PROBES]);
/* While entries come, one in a second is marked, and all bridges take a digest there. An entry is about to be added that
 * sends the last of the outbox: takes the digest of what is held now, and returns the entry's mark; 0: it has none. */
unsigned long long anti_entropy_watermark(struct ds_fleet *fleet);
/* A marked entry was read, of this bridge or of another one. */
void anti_entropy_read(struct ds_fleet *fleet, unsigned long long mark, bool is_own);
/* Forgets the mark: the entries of its question may not all be there. */
void anti_entropy_unmark(struct ds_fleet *fleet);
/* The server, or its stream, is another one, which has this. */
void anti_entropy_begin_anew(struct anti_entropy *anti_entropy, const struct stock *stock);

/* ---- all of it ---- */

enum { PERIOD = 1000 /* milliseconds from one round of anti-entropy to the next */ };

struct ds_fleet {
    struct items items;
    struct server server;
    struct producing producing;
    struct reading reading;
    struct compacting compacting;
    struct looking looking;
    struct anti_entropy anti_entropy;
    char *stream, *scope;        /* scope: as the stream's field has it */
    char me[PEER_ID];            /* the name of this run */
    int poller, timer;
    uint64_t armed;              /* for when the timer is set, or 0 */
    struct ds_fleet_state state; /* what is reported */
};

bool bridge_is_at_end(const struct ds_fleet *fleet);
/* Reads everything once more, from the stream's start. */
void bridge_read_from_start(struct ds_fleet *fleet);
/* Reads what a server has of the stream. Returns INSTEP, or how an answer is refused. */
enum ds_fleet_word bridge_look(struct ds_fleet *fleet, struct redisReply **looked, struct stock *stock);
/* Forgets what the server had: it is another one, or its stream is, and has this. */
void bridge_begin_anew(struct ds_fleet *fleet, const struct stock *stock);

#endif
