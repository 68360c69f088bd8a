/* Messages of services by the protocol of sd_notify(3): READY=1, WATCHDOG=1 and STATUS= of an instance's first process, whose number the
 * kernel writes beside each message. */
#ifndef DSRS_NOTIFY_SOCKET_H
#define DSRS_NOTIFY_SOCKET_H

#include "rs.h"
#include "watch.h"

/* Makes the socket `notify` in the folder of sockets. Returns false, with errno. */
bool notify_socket_open(struct watch *notify_socket, int epoll, const char *folder);
/* Reads the messages that have arrived. WATCHDOG=1 is a heartbeat. So is READY=1, with which the first period begins. */
void notify_socket_read(struct watch *notify_socket, struct rs *rs);

#endif
