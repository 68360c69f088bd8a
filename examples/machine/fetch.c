/* fetch SOCKET FILE WINDOW: downloads a file through the network server of the dsrs at SOCKET, with several chunks on their way. */
#include "asking.h"
#include "datagram.h"
#include <fcntl.h>
#include <stdlib.h>

int main(int count, char **words) {
    struct asking net;
    struct frame answer;
    uint64_t chunk = 0, end = UINT64_MAX;
    int file = count == 4 ? open(words[2], O_WRONLY | O_CREAT | O_TRUNC, 0666) : -1;
    if (file < 0) return 2;
    asking_open(&net, words[1], "inet", (unsigned)atoi(words[3]));
    while (chunk < end || !asking_is_idle(&net)) {
        while (chunk < end && asking_send(&net, chunk, READ, NULL, 0)) chunk++;
        struct head asked = asking_take(&net, &answer);
        if (answer.head.length < CHUNK && asked.place < end) end = asked.place;
        off_t at = (off_t)(asked.place * CHUNK);
        if (pwrite(file, answer.data, answer.head.length, at) != (ssize_t)answer.head.length) return 2;
    }
    return asking_report(&net) | close(file);
}
