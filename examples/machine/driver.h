/* What all drivers do alike: they serve the servers that connect to their endpoint, and answer the pings of dsrs. */
#ifndef MACHINE_DRIVER_H
#define MACHINE_DRIVER_H

#include "frame.h"

/* What a driver does of its own. */
struct driving {
    void (*serve)(struct frame *frame); /* carries out a request, and makes its answer of it */
    int device;                         /* a descriptor that speaks without being asked; -1: none */
    void (*hear)(void);                 /* reads from it */
};

/* Serves until dsrs ends. */
_Noreturn void driver_run(const struct driving *driving);
/* Sends a frame to every server that is connected. */
void driver_tell(const struct frame *frame);
/* Ends the driver if something isn't as it has to be. A driver that is wrong should stop, not continue. */
void driver_must(bool is_right);

#endif
