/* stream.h where hiredis, the C client of redis, isn't installed: the store is always alone. */
#include "stream.h"

bool stream_open(struct stream *stream, struct ds_handle *store, int epoll, struct log *log) {
    (void)store, (void)epoll;
    if (stream->url) log_say(log, LOG_ERROR, "stream: this dsrs was built without hiredis");
    return !stream->url;
}

void stream_turn(struct stream *stream, uint8_t owed[16], struct log *log) { (void)stream, (void)owed, (void)log; }

void stream_close(struct stream *stream, int epoll) { (void)stream, (void)epoll; }
