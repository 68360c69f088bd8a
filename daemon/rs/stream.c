/* The store in step with those of other hosts. See stream.h. */
#include "stream.h"
#include "ds_fleet.h"
#include <errno.h>
#include <string.h>
#include <sys/epoll.h>

enum { LAST = 2000 /* milliseconds, for the last news */ };

bool stream_open(struct stream *stream, struct ds_handle *store, int epoll, struct log *log) {
    if (!stream->url) return true;
    struct ds_fleet_options options = {.url = stream->url, .stream = stream->name, .tell = log_tell, .context = log};
    enum ds_fleet_word word = ds_fleet_open(&stream->fleet, store, &options);
    stream->word = DS_FLEET_LATE;
    if (word == DS_FLEET_INSTEP && watch_open(&stream->poller, epoll, ds_fleet_bell(stream->fleet), EPOLLIN)) return true;
    log_say(log, LOG_ERROR, "stream: %s", word == DS_FLEET_INSTEP || word == DS_FLEET_SYSTEM ? strerror(errno) : ds_fleet_word(word));
    return false;
}

void stream_turn(struct stream *stream, uint8_t owed[16], struct log *log) {
    if (!stream->fleet) return;
    stream->poller.ready = 0;
    enum ds_fleet_word word = ds_fleet_step(stream->fleet, 0);
    ds_fleet_owed(stream->fleet, owed);
    if (word == DS_FLEET_LATE || (int)word == stream->word) return;
    stream->word = (int)word;
    bool is_fine = word == DS_FLEET_INSTEP;
    log_say(log, is_fine ? LOG_INFO : LOG_WARN, "stream: %s", ds_fleet_word(word));
}

/* The poller is the fleet's, which closes the descriptor. */
void stream_close(struct stream *stream, int epoll) {
    if (!stream->fleet) return;
    if (stream->word == DS_FLEET_INSTEP) ds_fleet_step(stream->fleet, LAST);
    watch_for(&stream->poller, epoll, 0);
    ds_fleet_close(stream->fleet);
    stream->fleet = NULL;
}
