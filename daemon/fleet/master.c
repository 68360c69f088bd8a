/* Where the master is. See master.h.
 *
 *   state         | event                       | becomes, and does
 *   --------------+-----------------------------+--------------------------------------------------------
 *   LISTED        | a server's address is found | LISTED: that is where it is
 *   LISTED        | a Sentinel's is found       | ASKED: asks it for the master
 *   LISTED        | no address                  | LISTED: unknown
 *   ASKED         | it names the master         | NAMED
 *   ASKED         | it knows none, or is lost   | LISTED: unknown
 *   NAMED         | the address is found        | NAMED: that is where it is
 *   NAMED         | no address                  | LISTED: unknown
 *   LISTED, NAMED | no server was met there     | LISTED: the next address of the URL is due
 *   LISTED, NAMED | a node names another one    | NAMED */
#include "master.h"
#include "answers.h"
#include "text.h"
#include <stdio.h>
#include <stdlib.h>
#include <string.h>
#include <sys/eventfd.h>
#include <unistd.h>

enum {
    SERVER_PORT = 6379,
    SENTINEL_PORT = 26379,
    LAST_PORT = 65535,
    LAST_DATABASE = 1 << 20,
    MOST_PASSWORD = 255 /* bytes of a password beside the URL */
};

enum { NAMED_HOST, NAMED_PORT, NAMED_PARTS }; /* a Sentinel's answer */

/* ---- the URL ---- */

static int hex_digit(char byte) {
    if (byte >= '0' && byte <= '9') return byte - '0';
    if (byte >= 'a' && byte <= 'f') return byte - 'a' + 10;
    return byte >= 'A' && byte <= 'F' ? byte - 'A' + 10 : -1;
}

/* Replaces each %XX by a byte. */
static bool decode_percents(char *text) {
    char *to = text;
    for (const char *from = text; *from; from++, to++) {
        *to = *from;
        if (*from != '%') continue;
        if (hex_digit(from[1]) < 0 || hex_digit(from[2]) < 0) return false;
        *to = (char)(hex_digit(from[1]) * 16 + hex_digit(from[2]));
        if (!*to) return false;
        from += 2;
    }
    *to = '\0';
    return true;
}

/* Returns the number that is all of the text, or -1 if the text isn't a number or is above `most`. */
static int read_number(const char *text, int most) {
    unsigned long long number;
    size_t digits = read_digits(text, strlen(text), (unsigned long long)most, &number);
    return digits && !text[digits] ? (int)number : -1;
}

/* Cuts the text at the first such byte. Returns the rest, or NULL. */
static char *cut_at(char *text, char byte) {
    char *found = strchr(text, byte);
    if (!found) return NULL;
    *found = '\0';
    return found + 1;
}

/* Takes the user and the password off the front. Returns the rest after the last `@`, or NULL if they can't be read. */
static char *read_user(struct master *master, char *text) {
    char *at = *text == '/' ? NULL : strrchr(text, '@');
    if (!at) return text;
    *at = '\0';
    char *colon = strchr(text, ':');
    if (!colon) return NULL;
    *colon = '\0';
    master->call.user = *text ? text : NULL;
    master->call.password = colon + 1;
    return decode_percents(text) && decode_percents(colon + 1) ? at + 1 : NULL;
}

/* Reads one address of the list, HOST[:PORT]. */
static bool read_address(struct master *master, char *text, int port) {
    char *bracket = *text == '[' ? strchr(text, ']') : NULL;
    char *colon = strrchr(bracket ? bracket : text, ':');
    if (master->count == MASTER_ADDRESSES) return false;
    if (bracket) {
        *bracket = '\0';
        text++;
    }
    if (colon) {
        port = read_number(colon + 1, LAST_PORT);
        *colon = '\0';
    }
    struct address *address = &master->listed[master->count++];
    host_open(&address->host, text, master->wakeup);
    address->port = port;
    return *text && port > 0;
}

static bool read_addresses(struct master *master, char *text, int port) {
    bool good = true;
    for (char *each; good && (each = strsep(&text, ","));) good = read_address(master, each, port);
    return good;
}

static bool read_database(struct master *master, const char *text) {
    if (text && *text) master->call.database = read_number(text, LAST_DATABASE);
    return master->call.database >= 0;
}

static bool read_servers(struct master *master, char *text) {
    return read_database(master, cut_at(text, '/')) && read_addresses(master, text, SERVER_PORT);
}

static bool read_sentinels(struct master *master, char *text) {
    char *name = cut_at(text, '/');
    master->known_as = name;
    return name && read_database(master, cut_at(name, '/')) && *name && read_addresses(master, text, SENTINEL_PORT);
}

static bool read_path(struct master *master, char *text) {
    master->call.path = text;
    return *text == '/';
}

/* Reads the part after a question mark, `db=DATABASE`, if there is one. */
static bool read_query(struct master *master, const char *text) {
    static const char front[] = "db=";
    if (!text) return true;
    return text_begins(text, strlen(text), front) && read_database(master, text + strlen(front));
}

/* Copies a text, if there is one. Returns whether memory was enough. */
static bool copy_text(char **copy, const char *text) {
    *copy = text ? strdup(text) : NULL;
    return *copy || !text;
}

/* Reads the fields of TLS. */
static enum ds_fleet_word read_files(struct master *master, const struct ds_fleet_options *options) {
    bool is_copied = copy_text(&master->ca, options->ca) && copy_text(&master->certificate, options->certificate);
    if (!is_copied || !copy_text(&master->key, options->key)) return DS_FLEET_NOROOM;
    master->files = (struct tls_files){master->ca, master->certificate, master->key};
    master->call.tls = &master->files;
    master->said = master->tls_said;
    return tls_check(&master->files, master->tls_said) ? DS_FLEET_INSTEP : DS_FLEET_BADTLS;
}

static enum ds_fleet_word read_url(struct master *master, const struct ds_fleet_options *options) {
    static const struct { const char *front; bool (*read)(struct master *, char *); bool has_tls; } kinds[] = {
        {"redis://", read_servers, false},         {"rediss://", read_servers, true},           {"unix://", read_path, false},
        {"redis-sentinel://", read_sentinels, false}, {"rediss-sentinel://", read_sentinels, true},
    };
    const char *url = options->url;
    bool has_files = options->ca || options->certificate || options->key;
    for (size_t i = 0; i < sizeof kinds / sizeof *kinds; i++) {
        if (!text_begins(url, strlen(url), kinds[i].front)) continue;
        if (kinds[i].has_tls && !tls_is_built()) return DS_FLEET_NOTLS;
        if (has_files && !kinds[i].has_tls) return DS_FLEET_BADURL;
        if (!copy_text(&master->url, url)) return DS_FLEET_NOROOM;
        char *rest = read_user(master, master->url + strlen(kinds[i].front)), *query = rest ? cut_at(rest, '?') : NULL;
        if (!rest || !kinds[i].read(master, rest) || !read_query(master, query)) return DS_FLEET_BADURL;
        return kinds[i].has_tls ? read_files(master, options) : DS_FLEET_INSTEP;
    }
    return DS_FLEET_BADURL;
}

enum ds_fleet_word master_open(struct master *master, const struct ds_fleet_options *options) {
    const char *password = options->password;
    if (!options->url || (password && strlen(password) > MOST_PASSWORD)) return DS_FLEET_BADURL;
    master->wakeup = eventfd(0, EFD_NONBLOCK | EFD_CLOEXEC);
    if (master->wakeup < 0) return DS_FLEET_SYSTEM;
    enum ds_fleet_word word = read_url(master, options);
    if (word != DS_FLEET_INSTEP) return word;
    if (!copy_text(&master->password, password)) return DS_FLEET_NOROOM;
    if (password) master->call.password = master->password;
    return DS_FLEET_INSTEP;
}

/* ---- finding the master ---- */

static enum host_found master_unknown(struct master *master, const char *why) {
    master->state = MASTER_LISTED;
    master->said = why;
    return HOST_UNKNOWN;
}

/* Finds how to call an address. */
static enum host_found find_address(struct master *master, struct address *address, uint64_t now) {
    enum host_found found = host_find(&address->host, now);
    if (found == HOST_UNKNOWN) return master_unknown(master, address->host.said);
    master->call.host = address->host.address;
    master->call.port = address->port;
    master->call.server = address->host.name;
    return found;
}

static void name_master(struct master *master, const char *host, int port) {
    struct address *named = &master->named;
    if (strncmp(named->host.name, host, HOST_NAME - 1)) { /* the same host keeps its last address */
        host_close(&named->host);
        host_open(&named->host, host, master->wakeup);
    }
    named->port = port;
    master->state = MASTER_NAMED;
}

static enum host_found ask_sentinel(struct master *master, uint64_t now) {
    const struct link_call *at = &master->call;
    struct link_call call = {.host = at->host, .port = at->port, .tls = at->tls, .server = at->server};
    if (!link_open(&master->sentinel, &call, now)) return master_unknown(master, master->sentinel.said);
    link_ask(&master->sentinel, "SENTINEL get-master-addr-by-name %s", master->known_as);
    master->state = MASTER_ASKED;
    return HOST_SOUGHT;
}

static enum host_found hear_sentinel(struct master *master, uint64_t now) {
    switch (link_turn(&master->sentinel, now)) {
    case LINK_IDLE:
    case LINK_LOST: return master_unknown(master, master->sentinel.said);
    case LINK_WAITS: return HOST_SOUGHT;
    case LINK_ANSWERED: break;
    }
    const redisReply *answer = master->sentinel.answers[0];
    bool is_named = is_list_of(answer, NAMED_PARTS) && is_text(answer->element[NAMED_HOST]);
    long long port = is_named ? count_of(answer->element[NAMED_PORT]) : 0;
    if (port > 0) name_master(master, answer->element[NAMED_HOST]->str, (int)port);
    link_close(&master->sentinel);
    if (port <= 0) return master_unknown(master, "the Sentinel knows no such master");
    return find_address(master, &master->named, now);
}

enum host_found master_find(struct master *master, uint64_t now) {
    if (master->call.path) return HOST_FOUND;
    if (master->state == MASTER_ASKED) return hear_sentinel(master, now);
    if (master->state == MASTER_NAMED) return find_address(master, &master->named, now);
    enum host_found found = find_address(master, &master->listed[master->turn], now);
    return found == HOST_FOUND && master->known_as ? ask_sentinel(master, now) : found;
}

void master_hear(struct master *master) {
    eventfd_t rung;
    eventfd_read(master->wakeup, &rung);
}

static struct host *host_in_use(struct master *master) {
    return master->state == MASTER_NAMED ? &master->named.host : &master->listed[master->turn].host;
}

void master_worked(struct master *master) { host_worked(host_in_use(master)); }

void master_failed(struct master *master) {
    host_failed(host_in_use(master));
    link_close(&master->sentinel);
    master->state = MASTER_LISTED;
    if (master->count) master->turn = (master->turn + 1) % master->count;
}

void master_moved(struct master *master, const char *place) {
    char host[HOST_NAME];
    const char *colon = strrchr(place, ':');
    size_t length = colon ? (size_t)(colon - place) : 0;
    int port = colon ? read_number(colon + 1, LAST_PORT) : 0;
    if (!colon || length >= sizeof host || port <= 0 || master->call.path) return;
    /* A node without a host is on the host that was asked. */
    if (length) snprintf(host, sizeof host, "%.*s", (int)length, place);
    else snprintf(host, sizeof host, "%s", master->call.server);
    name_master(master, host, port);
}

bool master_has_others(const struct master *master) { return master->count > 1 || master->known_as; }

void master_close(struct master *master) {
    for (size_t i = 0; i < master->count; i++) host_close(&master->listed[i].host);
    host_close(&master->named.host);
    link_close(&master->sentinel);
    if (master->wakeup >= 0) close(master->wakeup);
    free(master->url);
    free(master->password);
    free(master->ca);
    free(master->certificate);
    free(master->key);
}
