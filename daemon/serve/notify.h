/* Messages to the service manager, by the protocol of sd_notify(3): none if NOTIFY_SOCKET names no socket. */
#ifndef SERVE_NOTIFY_H
#define SERVE_NOTIFY_H

void notify(const char *format, ...) __attribute__((format(printf, 1, 2)));

#endif
