/* Replaces getaddrinfo, preloaded by tests/bridges/fleets.py: `fleet.test` has the addresses, separated by spaces, of the file that the
 * variable NAMES names. While that file is empty, the lookup waits. `-` is the answer that there is no address now. Every other name is
 * looked up as usual. */
#include <dlfcn.h>
#include <netdb.h>
#include <stdio.h>
#include <stdlib.h>
#include <string.h>
#include <unistd.h>

enum { ADDRESSES = 128, REST = 10000 /* microseconds */ };

typedef int looks_up(const char *, const char *, const struct addrinfo *, struct addrinfo **);

static int has_addresses(char addresses[ADDRESSES]) {
    FILE *file = fopen(getenv("NAMES"), "r");
    int has = file && fgets(addresses, ADDRESSES, file);
    if (file) fclose(file);
    return has;
}

int getaddrinfo(const char *name, const char *service, const struct addrinfo *hints, struct addrinfo **found) {
    looks_up *real;
    char addresses[ADDRESSES], *left = NULL;
    *(void **)&real = dlsym(RTLD_NEXT, "getaddrinfo");
    int is_digits = hints && hints->ai_flags & AI_NUMERICHOST;
    if (is_digits || !name || strcmp(name, "fleet.test")) return real(name, service, hints, found);
    while (!has_addresses(addresses)) usleep(REST);
    if (*addresses == '-') return EAI_AGAIN;
    for (char *address = strtok_r(addresses, " ", &left); address; address = strtok_r(NULL, " ", &left)) {
        int error = real(address, service, hints, found);
        if (error) return error;
        while (*found) found = &(*found)->ai_next;
    }
    return 0;
}
