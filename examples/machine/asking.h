/* What the machine's applications do alike: they find a server by its label, ask it with several requests on their way, and count. */
#ifndef MACHINE_ASKING_H
#define MACHINE_ASKING_H

#include "frame.h"

enum { WINDOW = 256 /* requests on their way, at most */ };

struct asking {
    int server;
    unsigned window;
    uint64_t asked, answered, refused, wrong, twice; /* twice: answers that nothing waited for */
    struct head waits[WINDOW];                       /* the requests on their way, each at its id's rest; verb 0: none */
};

/* Connects to the server that has a label at the dsrs of a socket, once it is there. It exits if it doesn't come. */
void asking_open(struct asking *asking, const char *socket, const char *label, unsigned window);
/* Whether the next request may be sent: no more than `window` are on their way, in order of their ids. */
bool asking_has_room(const struct asking *asking);
/* Sends a request. Returns false if it may not be sent now. */
bool asking_send(struct asking *asking, uint64_t place, enum verb verb, const uint8_t *data, uint32_t length);
/* Waits for the next answer to a request that is on its way, and returns that request. It prints the counts and exits after ten seconds
 * without one. */
struct head asking_take(struct asking *asking, struct frame *answer);
bool asking_is_idle(const struct asking *asking);
/* Prints the counts, and returns the exit status: 0 if every request has one right answer. */
int asking_report(const struct asking *asking);

#endif
