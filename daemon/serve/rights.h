/* The rights of a client: of the process at a socket's other end, by the user and groups that the kernel knows. */
#ifndef SERVE_RIGHTS_H
#define SERVE_RIGHTS_H

#include <stdbool.h>
#include <sys/types.h>

enum role { ROLE_NOBODY, ROLE_READER, ROLE_WRITER };

#define NO_GROUP ((gid_t)-1)

struct rights { gid_t writers, readers; /* readers: NO_GROUP if all who may connect are writers */ };

/* Reads a group's name or number into a gid_t. Returns false if there is no such group. */
bool rights_read_group(void *group, char *name);
/* Returns the user of a socket's other end, or (uid_t)-1 if the kernel doesn't know the user. */
uid_t rights_user(int socket);
/* Returns the role of a socket's other end: root, this process's user, and members of `writers` are writers; members of
 * `readers` are readers. */
enum role rights_of(const struct rights *rights, int socket);

#endif
