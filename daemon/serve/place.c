/* The place of a program's socket. See place.h. */
#include "place.h"
#include <errno.h>
#include <fcntl.h>
#include <stdio.h>
#include <string.h>
#include <sys/file.h>
#include <sys/socket.h>
#include <sys/stat.h>
#include <unistd.h>

enum { BACKLOG = 512, TRIES = 8 /* to lock a file that others remove meanwhile */ };

static const char another[] = "another one serves it";

static bool place_failed(const struct place *place, const char *path, const char *why) {
    log_say(place->log, LOG_ERROR, "socket: %s: %s", path, why);
    return false;
}

static struct sockaddr_un address_of(const struct place *place) {
    struct sockaddr_un address = {.sun_family = AF_UNIX};
    snprintf(address.sun_path, sizeof address.sun_path, "%s", place->path);
    return address;
}

/* Whether a process serves the socket at the path. Only a refused connection means that none does. */
static bool is_served(const struct place *place) {
    struct sockaddr_un address = address_of(place);
    int it = socket(AF_UNIX, SOCK_STREAM | SOCK_NONBLOCK | SOCK_CLOEXEC, 0);
    if (it < 0) return true;
    bool is_connected = !connect(it, (struct sockaddr *)&address, sizeof address);
    bool is_refused = !is_connected && (errno == ECONNREFUSED || errno == ENOENT);
    close(it);
    return !is_refused;
}

/* Whether the path is free, or has a socket that may be taken over. */
static bool is_free(const struct place *place) {
    struct stat it;
    if (lstat(place->path, &it)) return errno == ENOENT || place_failed(place, place->path, strerror(errno));
    if (!S_ISSOCK(it.st_mode)) return place_failed(place, place->path, "it isn't a socket, and is left alone");
    if (it.st_uid != geteuid()) return place_failed(place, place->path, "it is another user's socket, and is left alone");
    return !is_served(place) || place_failed(place, place->path, another);
}

/* Whether the path names the file that is open. */
static bool is_at(int file, const char *path) {
    struct stat opened, named;
    if (fstat(file, &opened) || lstat(path, &named)) return false;
    return opened.st_dev == named.st_dev && opened.st_ino == named.st_ino;
}

static void name_lock(const struct place *place, char path[PLACE_PATH + 8]) {
    snprintf(path, PLACE_PATH + 8, "%s.lock", place->path);
}

/* If another process removes the file between open and flock, dsfleet or dsrs makes a new one. */
static int open_lock(const char *path) {
    for (int tries = 0; tries < TRIES; tries++) {
        int lock = open(path, O_CREAT | O_RDWR | O_CLOEXEC | O_NOFOLLOW | O_NONBLOCK, 0600);
        if (lock < 0) return -1;
        bool is_held = !flock(lock, LOCK_EX | LOCK_NB);
        if (is_held && is_at(lock, path)) return lock;
        int error = errno;
        close(lock);
        errno = error;
        if (!is_held) return -1;
    }
    errno = EWOULDBLOCK;
    return -1;
}

bool place_is_taken(const struct place *place) {
    char path[PLACE_PATH + 8];
    struct stat it;
    name_lock(place, path);
    if (!lstat(place->path, &it) && S_ISSOCK(it.st_mode) && is_served(place)) return true;
    int lock = open(path, O_RDWR | O_CLOEXEC | O_NOFOLLOW | O_NONBLOCK);
    bool is_held = lock >= 0 && flock(lock, LOCK_EX | LOCK_NB) && errno == EWOULDBLOCK;
    if (lock >= 0) close(lock);
    return is_held;
}

bool place_lock(struct place *place) {
    char path[PLACE_PATH + 8];
    name_lock(place, path);
    if (!is_free(place)) return false;
    if (place->lock >= 0 && is_at(place->lock, path)) return true;
    int lock = open_lock(path);
    if (lock < 0 && errno == EWOULDBLOCK) return place_failed(place, place->path, another);
    if (lock < 0) return place_failed(place, path, strerror(errno));
    if (place->lock >= 0) close(place->lock);
    place->lock = lock;
    return true;
}

/* Called before listen(), so nobody connects before the socket has its mode. */
static bool has_access(const struct place *place) {
    const struct place_access *access = &place->access;
    return !lchown(place->path, (uid_t)-1, access->group) && (!access->mode || !chmod(place->path, access->mode));
}

bool place_serve(struct place *place) {
    struct sockaddr_un address = address_of(place);
    struct stat it;
    if (!place_lock(place)) return false;
    int listener = socket(AF_UNIX, SOCK_STREAM | SOCK_NONBLOCK | SOCK_CLOEXEC, 0);
    if (listener < 0) return place_failed(place, place->path, strerror(errno));
    unlink(place->path); /* left by a process that was killed */
    bool is_bound = !bind(listener, (struct sockaddr *)&address, sizeof address);
    if (!is_bound || !has_access(place) || listen(listener, BACKLOG) || lstat(place->path, &it)) {
        const char *why = strerror(errno);
        close(listener);
        return place_failed(place, place->path, why);
    }
    place->listener = listener;
    place->device = it.st_dev;
    place->inode = it.st_ino;
    log_say(place->log, LOG_INFO, "serves: %s", place->path);
    return true;
}

int place_accept(const struct place *place) { return accept4(place->listener, NULL, NULL, SOCK_NONBLOCK | SOCK_CLOEXEC); }

/* The socket is missing: another one takes its place. */
static void serve_again(struct place *place) {
    int before = place->listener;
    if (place_serve(place)) close(before);
}

void place_keep(struct place *place) {
    char path[PLACE_PATH + 8];
    struct stat it;
    name_lock(place, path);
    int lock = is_at(place->lock, path) ? place->lock : open_lock(path);
    if (lock < 0) return; /* the holder finds that the socket is served */
    if (lock != place->lock) close(place->lock);
    place->lock = lock;
    if (place->listener >= 0 && lstat(place->path, &it) && errno == ENOENT) serve_again(place);
}

void place_leave(struct place *place) {
    char path[PLACE_PATH + 8];
    struct stat it;
    name_lock(place, path);
    if (place->listener >= 0) {
        bool is_ours = !lstat(place->path, &it) && it.st_dev == place->device && it.st_ino == place->inode;
        if (is_ours) unlink(place->path);
        close(place->listener);
    }
    if (place->lock < 0) return;
    /* A file with contents isn't a lock that was made here. */
    if (is_at(place->lock, path) && !fstat(place->lock, &it) && !it.st_size) unlink(path);
    close(place->lock);
}
