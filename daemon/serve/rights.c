/* The rights of a client. See rights.h. */
#include "rights.h"
#include <grp.h>
#include <stdlib.h>
#include <sys/socket.h>
#include <unistd.h>

#ifndef SO_PEERGROUPS
#define SO_PEERGROUPS 59
#endif

enum { MOST_GROUPS = 1024 };

bool rights_read_group(void *group, char *name) {
    char *end;
    const struct group *known = getgrnam(name);
    unsigned long number = strtoul(name, &end, 10);
    *(gid_t *)group = known ? known->gr_gid : (gid_t)number;
    return known || (*name >= '0' && *name <= '9' && !*end);
}

static struct ucred other_end(int socket) {
    struct ucred peer = {.uid = (uid_t)-1, .gid = NO_GROUP};
    socklen_t length = sizeof peer;
    getsockopt(socket, SOL_SOCKET, SO_PEERCRED, &peer, &length);
    return peer;
}

uid_t rights_user(int socket) { return other_end(socket).uid; }

enum role rights_of(const struct rights *rights, int socket) {
    gid_t groups[MOST_GROUPS + 1];
    socklen_t room = MOST_GROUPS * sizeof *groups;
    enum role role = ROLE_NOBODY;
    if (rights->readers == NO_GROUP) return ROLE_WRITER;
    const struct ucred peer = other_end(socket);
    if (peer.uid == (uid_t)-1) return ROLE_NOBODY;
    if (!peer.uid || peer.uid == geteuid()) return ROLE_WRITER;
    if (getsockopt(socket, SOL_SOCKET, SO_PEERGROUPS, groups, &room)) room = 0;
    size_t count = room / sizeof *groups;
    groups[count++] = peer.gid;
    for (size_t i = 0; i < count; i++) {
        if (groups[i] == rights->writers) return ROLE_WRITER;
        if (groups[i] == rights->readers) role = ROLE_READER;
    }
    return role;
}
