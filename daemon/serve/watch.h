/* Descriptors that an epoll watches. The loop only marks descriptors as ready, and each owner looks at its marks in its
 * turn, so no memory is freed to which an event still points. */
#ifndef SERVE_WATCH_H
#define SERVE_WATCH_H

#include <stdbool.h>
#include <stdint.h>

/* A watched descriptor; `file` is -1 without one. `ready` has the events since the owner cleared the field. */
struct watch { int file; uint32_t wanted, ready; };

/* Watches a descriptor for events of epoll. Returns false, with errno, if the descriptor is negative or can't be
 * watched. */
bool watch_open(struct watch *watch, int epoll, int file, uint32_t wanted);
/* Watches for other events; 0 for none, not even a hang-up. */
void watch_for(struct watch *watch, int epoll, uint32_t wanted);
/* Stops watching, and closes the descriptor. An epoll would go on watching as long as a child has a copy. */
void watch_close(struct watch *watch, int epoll);
/* Waits until a descriptor is ready, unless `at_once`, and marks the ready ones. */
void watch_wait(int epoll, bool at_once);

#endif
