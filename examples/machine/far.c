/* far WIRE FILE: the other end of the wire, which answers requests for chunks of a file. */
#include "datagram.h"
#include <fcntl.h>

int main(int count, char **words) {
    static struct datagram asked, chunk;
    int file = count == 3 ? open(words[2], O_RDONLY) : -1, wire = file < 0 ? -1 : wire_open(words[1], "far");
    if (wire < 0) return 1;
    for (;;) {
        ssize_t got = recv(wire, &asked, sizeof asked, 0);
        if (!datagram_is_right(&asked, got) || !asked.is_request) continue;
        ssize_t length = pread(file, chunk.data, CHUNK, (off_t)(asked.chunk * CHUNK));
        chunk.chunk = asked.chunk;
        chunk.length = length > 0 ? (uint32_t)length : 0;
        chunk.sum = datagram_sum(&chunk);
        wire_send(wire, "near", &chunk, datagram_size(&chunk));
    }
}
