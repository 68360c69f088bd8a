/* The store in step with those of other hosts, over a redis stream, by ds_fleet. */
#ifndef DSRS_STREAM_H
#define DSRS_STREAM_H

#include "ds.h"
#include "log.h"
#include "watch.h"
#include <stdbool.h>
#include <stdint.h>

struct ds_fleet;

struct stream {
    const char *url, *name; /* of the server, or NULL: the store is alone; the prefix of the keys, or NULL */
    struct ds_fleet *fleet;
    struct watch poller;
    int word;               /* the word of the last step, by ds_fleet.h */
};

/* Joins the store to the stream, without waiting for the server. Returns false after a line to the log. */
bool stream_open(struct stream *stream, struct ds_handle *store, int epoll, struct log *log);
/* Sends the store's new changes, and merges those of other hosts, without waiting. Sets the bits of the subscriptions that are owed
 * a notice. */
void stream_turn(struct stream *stream, uint8_t owed[16], struct log *log);
/* Tells the rest, for two seconds at most, and leaves the stream. */
void stream_close(struct stream *stream, int epoll);

#endif
