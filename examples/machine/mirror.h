/* The file server's requests: blocks of one disk, or of two that hold the same, and characters.
 *
 * A block's checksum is kept apart from the disks, and every reading is compared with it. If one is wrong, the block is read from the
 * other disk, and a third driver, the probe, which may only read, looks at the block as well:
 *   - it finds the disk right: so the driver that read it wrongly is to blame;
 *   - it finds the disk wrong: the block is written back, and no driver is blamed, unless the probe finds it wrong again after that. */
#ifndef MACHINE_MIRROR_H
#define MACHINE_MIRROR_H

#include "drivers.h"

enum { TASKS = 256, COPIES = 2 };

enum copy_state {
    UNREAD,  /* nothing was asked of it */
    ASKED,   /* its driver reads or writes it */
    SUSPECT, /* its driver read it wrongly or wrote it back: the probe reads it */
    RIGHT,
    WRONG,   /* it waits for the right data */
    LOST     /* it can't be written back */
};

struct copy { enum copy_state state; bool was_written; unsigned tries; struct endpoint by; };

/* A client's request. */
struct task {
    bool is_used, waits, has_data, is_answered, is_sent, is_settled;
    int client;        /* -1: it hung up */
    struct head asked; /* its id is the client's */
    uint32_t result;
    uint64_t arrival;
    struct copy copy[COPIES];
    uint8_t data[BLOCK];
};

/* The checksums are in a file, one for each block. The drivers are the probe, the console, and one or two disks. Returns false if the file
 * can't be used. */
bool mirror_open(const char *sums, struct driver *drivers, unsigned count);
bool mirror_has_room(void);
/* Takes a request. Returns false if it isn't one. */
bool mirror_take(int client, const struct frame *frame, ptrdiff_t got);
void mirror_done(struct job *job, const struct frame *answer);
struct frame mirror_answer(unsigned task);
void mirror_sent(unsigned task);
void mirror_drop(int client);

#endif
