/* A client of a dsrs or a dsfleet, and the side of an instance that dsrs started. docs/reference/client.md describes the calls.
 *
 * Plain C for Linux, in one file: compile client.c with the folder of ds.h on the include path, and link no library. A client has one
 * connection. No call starts a thread or installs a signal handler, and only one thread at a time may use a client and its watches.
 *
 * A call that waits does so for the client's timeout, in milliseconds; -1 is without end. A program with a poller of its own polls
 * ds_client_file, and then calls ds_watch_next, ds_client_notice or ds_instance_wait with the timeout 0.
 *
 * Every call that may fail returns 0, a number of enum ds_refusal, or one of enum ds_client_fault. */
#ifndef DS_CLIENT_H
#define DS_CLIENT_H

#include "ds.h"
#include <stdbool.h>
#include <sys/types.h>

enum ds_client_fault {
    DS_CLIENT_NOTSENDER = 100, /* the daemon: the connection acts under another endpoint */
    DS_CLIENT_BADLINE,         /* the daemon can't read the line */
    DS_CLIENT_NOREQUEST,       /* the daemon doesn't know the line, or not from this client */
    DS_CLIENT_OTHER,           /* a refusal of a newer daemon: ds_client_word has its word */
    DS_CLIENT_TIMEOUT,         /* the time is over. A later answer is dropped, so the next call gets its own */
    DS_CLIENT_LOST,            /* there is no connection: errno says why, 0 that the daemon hung up */
    DS_CLIENT_NOMEMORY,        /* this process is out of memory */
    DS_CLIENT_BADCALL          /* a name, value or line that can't be sent, or no endpoint to publish under; nothing was sent */
};

#ifdef __cplusplus
extern "C" {
#endif

struct ds_client;
struct ds_watch;

struct ds_endpoint { uint32_t generation; uint16_t slot; };

/* A value. A label has an endpoint, a u32 a number; str and mem have bytes, after which there is a zero. */
struct ds_value {
    uint8_t kind; /* of enum ds_kinds */
    struct ds_endpoint endpoint;
    uint32_t number;
    size_t length;
    char bytes[DS_MAX_MEMORY + 1];
};

enum ds_item_kind {
    DS_ITEM_ANEW, /* of a watch: all that was known is forgotten, and the items that follow are all there is */
    DS_ITEM_PUT,  /* name, owner, version, value */
    DS_ITEM_GONE, /* name, owner, version, and the kind of the value */
    DS_ITEM_FLOOR /* owner, epoch: all that the owner published up to this generation is gone, labels aside */
};

struct ds_item {
    enum ds_item_kind kind;
    char name[DS_MAX_NAME + 1], owner[DS_MAX_NAME + 1];
    uint32_t epoch, seq;
    struct ds_value value;
    const char *line; /* the item's line with its newline, as ds_map_take takes it; until the next call */
    size_t length;
};

struct ds_cursor { uint64_t incarnation, position; };

/* ---- a connection ---- */

/* Connects to the socket of a dsrs or a dsfleet. *client is NULL after a fault. */
uint32_t ds_client_open(struct ds_client **client, const char *path, int timeout) DS_NODISCARD;
/* Closes the connection. Its watches are closed first. A client of NULL is none. */
void ds_client_close(struct ds_client *client);
/* Opens the connection again, and repeats the `as`. Subscriptions are lost; watches make their own again. */
uint32_t ds_client_reconnect(struct ds_client *client) DS_NODISCARD;
/* Returns the descriptor to poll, or -1 while there is no connection, and the events of poll to wait for. */
int ds_client_file(const struct ds_client *client);
short ds_client_events(const struct ds_client *client);
void ds_client_set_timeout(struct ds_client *client, int timeout);
/* Returns the word of the last fault, such as `notallowed`, as the daemon spelled it, or `timeout`, `lost`, `noroom` or `badcall`. */
const char *ds_client_word(const struct ds_client *client);

/* Sends a line, without its newline, and waits for the answer: lines that end with newlines, and then a zero. They are valid until
 * the next call. A refusal is the result. answer may be NULL. */
uint32_t ds_client_ask(struct ds_client *client, const char *line, const char **answer) DS_NODISCARD;

/* For a program that sends several lines before it waits. These never wait, and judge no answer. */

/* Appends bytes to be sent. */
uint32_t ds_client_put(struct ds_client *client, const char *bytes, size_t length) DS_NODISCARD;
/* Sends and receives as much as goes without waiting. */
uint32_t ds_client_turn(struct ds_client *client) DS_NODISCARD;
/* Takes the next whole answer or notice, whose last line is empty. Returns its length, or 0 if none is whole. The bytes are valid
 * until the next ds_client_turn. */
size_t ds_client_take(struct ds_client *client, const char **bytes);

/* ---- requests ---- */

uint32_t ds_client_retrieve(struct ds_client *client, const char *name, uint8_t kind, struct ds_value *value) DS_NODISCARD;
/* Writes the name whose label has an endpoint. */
uint32_t ds_client_nameof(struct ds_client *client, struct ds_endpoint endpoint, char name[DS_MAX_NAME + 1]) DS_NODISCARD;
/* Makes a client of a dsfleet act under an endpoint. An instance acts under its own from the start. */
uint32_t ds_client_as(struct ds_client *client, struct ds_endpoint endpoint) DS_NODISCARD;
/* Publish a value, over an older one, or delete an entry. The version is the caller's generation and the client's count of its
 * changes. Each call takes a new number, so a change without an answer is repeated by another call. */
uint32_t ds_client_publish(struct ds_client *client, const char *name, const struct ds_value *value) DS_NODISCARD;
uint32_t ds_client_delete(struct ds_client *client, const char *name, uint8_t kind) DS_NODISCARD;

/* Values to publish. A text that is too long has a length that ds_client_publish refuses. */
struct ds_value ds_value_u32(uint32_t number);
struct ds_value ds_value_str(const char *text);
struct ds_value ds_value_mem(const void *bytes, size_t length);
struct ds_value ds_value_label(struct ds_endpoint endpoint);

/* Subscribes to the names of these kinds that a pattern matches, by a number that nobody uses, and asks for notices. The first check
 * shows all that is held. */
uint32_t ds_client_subscribe(struct ds_client *client, const char *pattern, unsigned kinds, int *sub) DS_NODISCARD;
/* Takes the lines of the items that the subscription wasn't shown yet, 256 at most, for ds_item_read. */
uint32_t ds_client_check(struct ds_client *client, int sub, const char **items) DS_NODISCARD;
/* Reads the item at the front of lines, and moves them past that. Returns false at the line after the last item. */
bool ds_item_read(const char **lines, struct ds_item *item);
/* Waits for a notice, and writes its subscription. Notices of watches aren't reported. */
uint32_t ds_client_notice(struct ds_client *client, int timeout, int *sub) DS_NODISCARD;

/* Connects to the living instance of a service by its label: to the socket SOCKET.d/GENERATION.SLOT. While the service restarts, and
 * while the daemon does, the call tries again until the client's timeout: DS_NOTFOUND, if no instance lives then. Writes the
 * endpoint, and a descriptor of SOCK_SEQPACKET that the caller closes. */
uint32_t ds_client_connect(struct ds_client *client, const char *label, struct ds_endpoint *endpoint, int *file) DS_NODISCARD;

/* ---- a watch ---- */

/* Follows the names of these kinds that a pattern matches. Without a cursor the first item is DS_ITEM_ANEW, and then come all that
 * are held; with the cursor of an earlier watch come those after it. */
uint32_t ds_watch_open(struct ds_watch **watch, struct ds_client *client, const char *pattern, unsigned kinds,
                       const struct ds_cursor *from) DS_NODISCARD;
void ds_watch_close(struct ds_watch *watch);
/* Waits for the next item: DS_CLIENT_TIMEOUT if there is none in time. A lost connection is opened again, and the watch continues at
 * its cursor. If the journal doesn't have the cursor any longer, DS_ITEM_ANEW and a snapshot follow. DS_CLIENT_LOST: the daemon can't
 * be reached in time; call again. A request that the watch sends meanwhile may take the client's timeout. */
uint32_t ds_watch_next(struct ds_watch *watch, int timeout, struct ds_item *item) DS_NODISCARD;
/* Writes the cursor up to which all items were returned. Returns false before there is one. */
bool ds_watch_cursor(const struct ds_watch *watch, struct ds_cursor *cursor);

/* ---- an instance, which is a process of a service ---- */

/* Takes the connection to the dsrs that started this process, descriptor DS_FD. Every call that waits answers pings. The connection
 * can't be opened again: once it is lost, dsrs has ended. */
uint32_t ds_instance_open(struct ds_client **instance, int timeout) DS_NODISCARD;
/* Returns the endpoint of this process. */
struct ds_endpoint ds_instance_endpoint(const struct ds_client *instance);
/* Returns the descriptor at which the instance accepts clients, DS_LISTEN, or -1. */
int ds_instance_listener(void);
/* Answers pings for this time. Returns 0 when the time is over. */
uint32_t ds_instance_wait(struct ds_client *instance, int milliseconds) DS_NODISCARD;
/* Sends a heartbeat, for a process that is busy between two waits. */
uint32_t ds_instance_beat(struct ds_client *instance) DS_NODISCARD;
/* Sends a message to NOTIFY_SOCKET: `READY=1`, `WATCHDOG=1` or `STATUS=..`. Without that variable nothing is sent. */
uint32_t ds_instance_notify(const char *message) DS_NODISCARD;

#ifdef __cplusplus
}
#endif

#endif
