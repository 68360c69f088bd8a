/* The place of a program's socket: the path, and the lock beside that. Only a socket that this user owns and that nobody
 * serves is taken over, and only the socket that was made here is removed; any other file at the path is left alone. */
#ifndef SERVE_PLACE_H
#define SERVE_PLACE_H

#include "log.h"
#include "rights.h"
#include <stdbool.h>
#include <sys/types.h>
#include <sys/un.h>

enum { PLACE_PATH = sizeof((struct sockaddr_un *)0)->sun_path /* bytes of a path, with the terminating zero */ };

/* Who may connect. A mode of 0: by the umask; NO_GROUP: the group is this process's. */
struct place_access { mode_t mode; gid_t group; };

struct place {
    const char *path;
    struct place_access access;
    struct log *log;
    int lock, listener; /* -1: there is none */
    dev_t device;       /* with inode: the socket that was made */
    ino_t inode;
};

/* Whether a process serves the socket, or has the lock. */
bool place_is_taken(const struct place *place);

/* These return false after saying to the log why not. */

/* Takes the lock beside the path, so that no other process serves the socket. The kernel releases the lock at the holder's end. */
bool place_lock(struct place *place);
/* Makes the socket, and listens. */
bool place_serve(struct place *place);

/* Accepts a client. Returns the socket, or -1 with errno. */
int place_accept(const struct place *place);

/* Makes the lock and the socket anew where somebody removed the file, as programs do that clean /tmp. */
void place_keep(struct place *place);
/* Removes the socket and the lock, where they are the ones made here. */
void place_leave(struct place *place);

#endif
