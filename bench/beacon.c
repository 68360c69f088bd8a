/* beacon SOCKET: a service for bench/recovery. It sends its pid to a datagram socket, and waits to be killed. */
#include <stdio.h>
#include <string.h>
#include <sys/socket.h>
#include <sys/un.h>
#include <unistd.h>

int main(int count, char **words) {
    struct sockaddr_un to = {.sun_family = AF_UNIX};
    char text[24];
    if (count != 2 || strlen(words[1]) >= sizeof to.sun_path) return 2;
    memcpy(to.sun_path, words[1], strlen(words[1]));
    int it = socket(AF_UNIX, SOCK_DGRAM, 0), length = snprintf(text, sizeof text, "%d", getpid());
    if (sendto(it, text, (size_t)length, 0, (struct sockaddr *)&to, sizeof to) != length) return 1;
    for (;;) pause();
}
