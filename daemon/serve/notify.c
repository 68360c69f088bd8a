/* Messages to the service manager. See notify.h. */
#include "notify.h"
#include <stdarg.h>
#include <stddef.h>
#include <stdio.h>
#include <stdlib.h>
#include <string.h>
#include <sys/socket.h>
#include <sys/un.h>
#include <unistd.h>

enum { MESSAGE = 512 /* bytes, with the zero */ };

void notify(const char *format, ...) {
    struct sockaddr_un to = {.sun_family = AF_UNIX};
    const char *path = getenv("NOTIFY_SOCKET");
    char text[MESSAGE];
    va_list given;
    if (!path || !strchr("/@", *path) || strlen(path) >= sizeof to.sun_path) return;
    memcpy(to.sun_path, path, strlen(path));
    if (*path == '@') to.sun_path[0] = '\0'; /* an abstract socket */
    va_start(given, format);
    vsnprintf(text, sizeof text, format, given);
    va_end(given);
    int it = socket(AF_UNIX, SOCK_DGRAM | SOCK_NONBLOCK | SOCK_CLOEXEC, 0);
    if (it < 0) return;
    socklen_t length = (socklen_t)(offsetof(struct sockaddr_un, sun_path) + strlen(path));
    sendto(it, text, strlen(text), MSG_NOSIGNAL, (struct sockaddr *)&to, length);
    close(it);
}
