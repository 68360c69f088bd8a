/* The addresses of a host. See host.h. */
#include "host.h"
#include <fcntl.h>
#include <netdb.h>
#include <pthread.h>
#include <signal.h>
#include <stdatomic.h>
#include <stdio.h>
#include <stdlib.h>
#include <string.h>
#include <sys/eventfd.h>
#include <sys/socket.h>
#include <unistd.h>

enum { HOLDERS = 2 };

/* A look-up that the host and a thread share. The last of the two frees the memory. */
struct lookup {
    atomic_int holders;
    atomic_bool is_answered; /* the members below are written before this one is set */
    int error;               /* of getaddrinfo */
    unsigned count;
    char address[HOST_ADDRESSES][HOST_TEXT];
    int wakeup;                /* the thread's own descriptor of `wakeup` */
    char name[];
};

static void release_lookup(struct lookup *lookup) {
    if (atomic_fetch_sub(&lookup->holders, 1) > 1) return;
    close(lookup->wakeup);
    free(lookup);
}

/* ---- in the thread ---- */

static void keep_addresses(struct lookup *lookup, const struct addrinfo *found, int family) {
    for (; found && lookup->count < HOST_ADDRESSES; found = found->ai_next) {
        if (found->ai_family != family) continue;
        char *address = lookup->address[lookup->count];
        if (!getnameinfo(found->ai_addr, found->ai_addrlen, address, HOST_TEXT, NULL, 0, NI_NUMERICHOST)) lookup->count++;
    }
}

static void *look_up(void *given) {
    struct lookup *lookup = given;
    struct addrinfo hints = {.ai_family = AF_UNSPEC, .ai_socktype = SOCK_STREAM}, *found = NULL;
    lookup->error = getaddrinfo(lookup->name, NULL, &hints, &found);
    if (!lookup->error) {
        keep_addresses(lookup, found, AF_INET);
        keep_addresses(lookup, found, AF_INET6);
        freeaddrinfo(found);
    }
    atomic_store(&lookup->is_answered, true);
    eventfd_write(lookup->wakeup, 1);
    release_lookup(lookup);
    return NULL;
}

/* ---- the look-up's thread ---- */

/* Starts a thread that takes no signals: they are the program's. */
static bool start_thread(struct lookup *lookup) {
    pthread_t thread;
    pthread_attr_t detached;
    sigset_t all, before;
    if (pthread_attr_init(&detached)) return false;
    pthread_attr_setdetachstate(&detached, PTHREAD_CREATE_DETACHED);
    sigfillset(&all);
    pthread_sigmask(SIG_SETMASK, &all, &before);
    int error = pthread_create(&thread, &detached, look_up, lookup);
    pthread_sigmask(SIG_SETMASK, &before, NULL);
    pthread_attr_destroy(&detached);
    return !error;
}

static bool begin_lookup(struct host *host, uint64_t now) {
    size_t size = strlen(host->name) + 1;
    struct lookup *lookup = calloc(1, sizeof *lookup + size);
    if (!lookup) return false;
    memcpy(lookup->name, host->name, size);
    lookup->wakeup = fcntl(host->wakeup, F_DUPFD_CLOEXEC, 0);
    atomic_store(&lookup->holders, HOLDERS);
    if (lookup->wakeup < 0 || !start_thread(lookup)) {
        if (lookup->wakeup >= 0) close(lookup->wakeup);
        free(lookup);
        return false;
    }
    host->lookup = lookup;
    host->asked_at = now;
    return true;
}

static enum host_found use_address(struct host *host, const char *address) {
    snprintf(host->address, sizeof host->address, "%.*s", HOST_TEXT - 1, address);
    return HOST_FOUND;
}

static enum host_found use_last(struct host *host, const char *said) {
    host->said = said;
    return *host->worked ? use_address(host, host->worked) : HOST_UNKNOWN;
}

static enum host_found use_answer(struct host *host) {
    struct lookup *lookup = host->lookup;
    enum host_found found;
    host->lookup = NULL;
    if (lookup->count) {
        found = use_address(host, lookup->address[host->turn % lookup->count]);
    } else {
        found = use_last(host, lookup->error ? gai_strerror(lookup->error) : "its name has no address");
    }
    release_lookup(lookup);
    return found;
}

enum host_found host_find(struct host *host, uint64_t now) {
    if (host->is_address) return use_address(host, host->name);
    if (!host->lookup && !begin_lookup(host, now)) return use_last(host, "no memory or thread to look its name up");
    if (atomic_load(&host->lookup->is_answered)) return use_answer(host);
    if (now - host->asked_at < HOST_PATIENCE || !*host->worked) return HOST_SOUGHT;
    return use_address(host, host->worked);
}

static bool is_in_digits(const char *name) {
    struct addrinfo hints = {.ai_flags = AI_NUMERICHOST}, *found = NULL;
    if (getaddrinfo(name, NULL, &hints, &found)) return false;
    freeaddrinfo(found);
    return strlen(name) < HOST_TEXT;
}

void host_open(struct host *host, const char *name, int wakeup) {
    *host = (struct host){.wakeup = wakeup, .said = ""};
    snprintf(host->name, sizeof host->name, "%s", name);
    host->is_address = is_in_digits(host->name);
}

/* A look-up that still runs is of no use to this call, and would be an old answer to the next one. */
void host_worked(struct host *host) {
    snprintf(host->worked, sizeof host->worked, "%s", host->address);
    host_close(host);
}

void host_failed(struct host *host) { host->turn++; }

void host_close(struct host *host) {
    if (host->lookup) release_lookup(host->lookup);
    host->lookup = NULL;
}
