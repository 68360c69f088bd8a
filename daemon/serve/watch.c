/* Descriptors that an epoll watches. See watch.h. */
#include "watch.h"
#include <sys/epoll.h>
#include <unistd.h>

enum { EVENTS = 64 /* of one turn */ };

static bool watch_control(struct watch *watch, int epoll, int operation, uint32_t wanted) {
    struct epoll_event event = {.events = wanted, .data.ptr = watch};
    if (epoll_ctl(epoll, operation, watch->file, &event)) return false;
    watch->wanted = wanted;
    return true;
}

bool watch_open(struct watch *watch, int epoll, int file, uint32_t wanted) {
    *watch = (struct watch){.file = file};
    return file >= 0 && watch_control(watch, epoll, EPOLL_CTL_ADD, wanted);
}

void watch_for(struct watch *watch, int epoll, uint32_t wanted) {
    if (wanted == watch->wanted) return;
    int change = watch->wanted ? EPOLL_CTL_MOD : EPOLL_CTL_ADD;
    watch_control(watch, epoll, wanted ? change : EPOLL_CTL_DEL, wanted);
}

void watch_close(struct watch *watch, int epoll) {
    if (watch->file < 0) return;
    watch_for(watch, epoll, 0);
    close(watch->file);
    *watch = (struct watch){.file = -1};
}

void watch_wait(int epoll, bool at_once) {
    struct epoll_event events[EVENTS];
    int count = epoll_wait(epoll, events, EVENTS, at_once ? 0 : -1);
    for (int i = 0; i < count; i++) ((struct watch *)events[i].data.ptr)->ready |= events[i].events;
}
