/* player: carries out the commands of standard input by daemon/ask/client.c, and prints a line for each. player instance: the process of a
 * service. tests/clients/players.py starts it. */
#include "client.h"
#include <inttypes.h>
#include <poll.h>
#include <stdio.h>
#include <stdlib.h>
#include <string.h>
#include <sys/socket.h>
#include <unistd.h>

enum { LINE = 1 << 16, WATCHES = 16 };

static struct ds_client *client;
static struct ds_watch *watches[WATCHES];
static int count;

static const char *word_of(uint32_t fault) { return client ? ds_client_word(client) : fault == DS_CLIENT_LOST ? "lost" : "noroom"; }

/* Prints a fault, and returns whether there is one. */
static bool fails(uint32_t fault) { return fault && printf("fault %s\n", word_of(fault)) > 0; }

static void report(uint32_t fault) {
    if (!fails(fault)) printf("ok\n");
}

static uint8_t kind_of(const char *word) { return *word == 'l' ? DS_LABEL : *word == 'u' ? DS_U32 : *word == 's' ? DS_STR : DS_MEM; }

static const char *kind_text(uint8_t kind) { return kind == DS_LABEL ? "label" : kind == DS_U32 ? "u32" : kind == DS_STR ? "str" : "mem"; }

static void put_value(const struct ds_value *value) {
    if (value->kind == DS_LABEL) printf("%u/%u", value->endpoint.generation, value->endpoint.slot);
    if (value->kind == DS_U32) printf("%u", value->number);
    if (value->kind == DS_STR) printf("%s", value->bytes);
    for (size_t i = 0; value->kind == DS_MEM && i < value->length; i++) printf("%02x", (unsigned char)value->bytes[i]);
}

static void put_item(const struct ds_item *item) {
    if (item->kind == DS_ITEM_ANEW) printf("anew");
    if (item->kind == DS_ITEM_FLOOR) printf("! %s %u", item->owner, item->epoch);
    if (item->kind == DS_ITEM_ANEW || item->kind == DS_ITEM_FLOOR) return;
    printf("%s %s %s %u.%u ", item->name, kind_text(item->value.kind), item->owner, item->epoch, item->seq);
    if (item->kind == DS_ITEM_GONE) printf("-");
    else printf("= "), put_value(&item->value);
}

static struct ds_value read_value(uint8_t kind, const char *text) {
    struct ds_endpoint at = {0};
    char bytes[LINE];
    size_t length = 0;
    unsigned byte;
    if (kind == DS_U32) return ds_value_u32((uint32_t)strtoul(text, NULL, 10));
    if (kind == DS_STR) return ds_value_str(text);
    if (kind == DS_LABEL) {
        sscanf(text, "%" SCNu32 "/%" SCNu16, &at.generation, &at.slot);
        return ds_value_label(at);
    }
    while (length < sizeof bytes && sscanf(text + 2 * length, "%2x", &byte) == 1) bytes[length++] = (char)byte;
    return ds_value_mem(bytes, length);
}

/* Takes the next word off a text. */
static char *word(char **rest) {
    char *begin = *rest, *end = strchr(begin, ' ');
    *rest = end ? end + 1 : begin + strlen(begin);
    if (end) *end = '\0';
    return begin;
}

static void play_open(char *rest) {
    char *path = word(&rest);
    ds_client_close(client);
    report(ds_client_open(&client, path, atoi(rest)));
}

static void play_ask(char *rest) {
    const char *answer;
    uint32_t fault = ds_client_ask(client, rest, &answer);
    if (fails(fault)) return;
    for (; *answer; answer++) putchar(*answer == '\n' ? '|' : *answer);
    putchar('\n');
}

static void play_retrieve(char *rest) {
    struct ds_value value;
    char *name = word(&rest);
    uint32_t fault = ds_client_retrieve(client, name, kind_of(rest), &value);
    if (fails(fault)) return;
    put_value(&value);
    putchar('\n');
}

static void play_nameof(char *rest) {
    char name[DS_MAX_NAME + 1];
    uint32_t fault = ds_client_nameof(client, read_value(DS_LABEL, rest).endpoint, name);
    if (!fails(fault)) printf("%s\n", name);
}

static void play_as(char *rest) { report(ds_client_as(client, read_value(DS_LABEL, rest).endpoint)); }

static void play_publish(char *rest) {
    char *name = word(&rest), *kind = word(&rest);
    struct ds_value value = read_value(kind_of(kind), rest);
    report(ds_client_publish(client, name, &value));
}

static void play_delete(char *rest) {
    char *name = word(&rest);
    report(ds_client_delete(client, name, kind_of(rest)));
}

static void play_subscribe(char *rest) {
    int sub;
    char *pattern = word(&rest);
    uint32_t fault = ds_client_subscribe(client, pattern, (unsigned)atoi(rest), &sub);
    if (!fails(fault)) printf("sub %d\n", sub);
}

static void play_check(char *rest) {
    const char *lines;
    struct ds_item item;
    uint32_t fault = ds_client_check(client, atoi(rest), &lines);
    if (fails(fault)) return;
    while (ds_item_read(&lines, &item)) put_item(&item), putchar('|');
    putchar('\n');
}

static void play_notice(char *rest) {
    int sub;
    uint32_t fault = ds_client_notice(client, atoi(rest), &sub);
    if (!fails(fault)) printf("notice %d\n", sub);
}

static void play_watch(char *rest) {
    char *pattern = word(&rest), *kinds = word(&rest);
    struct ds_cursor from;
    bool has_cursor = sscanf(rest, "%" SCNu64 " %" SCNu64, &from.incarnation, &from.position) == 2;
    uint32_t fault = ds_watch_open(&watches[count], client, pattern, (unsigned)atoi(kinds), has_cursor ? &from : NULL);
    if (!fails(fault)) printf("watch %d\n", count++);
}

static void play_next(char *rest) {
    char *number = word(&rest);
    struct ds_item item;
    uint32_t fault = ds_watch_next(watches[atoi(number)], atoi(rest), &item);
    if (fails(fault)) return;
    put_item(&item);
    putchar('\n');
}

static void play_cursor(char *rest) {
    struct ds_cursor cursor;
    if (ds_watch_cursor(watches[atoi(rest)], &cursor)) printf("%" PRIu64 " %" PRIu64 "\n", cursor.incarnation, cursor.position);
    else printf("none\n");
}

static void play_unwatch(char *rest) {
    ds_watch_close(watches[atoi(rest)]);
    watches[atoi(rest)] = NULL;
    printf("ok\n");
}

static void play_connect(char *rest) {
    struct ds_endpoint at;
    char said[LINE];
    int file;
    uint32_t fault = ds_client_connect(client, rest, &at, &file);
    if (fails(fault)) return;
    ssize_t length = send(file, "hello", 5, MSG_NOSIGNAL) == 5 ? recv(file, said, sizeof said, 0) : 0;
    printf("%u/%u %.*s\n", at.generation, at.slot, length > 0 ? (int)length : 0, said);
    close(file);
}

static void play_reconnect(char *rest) {
    (void)rest;
    report(ds_client_reconnect(client));
}

static void play_two(char *rest) {
    char line[LINE];
    snprintf(line, sizeof line, "%s\nshow", rest);
    report(ds_client_ask(client, line, NULL));
}

static const struct { const char *word; void (*play)(char *rest); } plays[] = {
    {"open", play_open}, {"ask", play_ask}, {"retrieve", play_retrieve}, {"nameof", play_nameof}, {"as", play_as},
    {"publish", play_publish},
    {"delete", play_delete}, {"subscribe", play_subscribe}, {"check", play_check}, {"notice", play_notice}, {"watch", play_watch},
    {"next", play_next}, {"cursor", play_cursor}, {"unwatch", play_unwatch}, {"connect", play_connect}, {"reconnect", play_reconnect},
    {"two", play_two},
};

static void play(void) {
    static char line[LINE];
    while (fgets(line, sizeof line, stdin)) {
        char *rest = line, *verb;
        line[strcspn(line, "\n")] = '\0';
        verb = word(&rest);
        for (size_t i = 0; i < sizeof plays / sizeof *plays; i++)
            if (!strcmp(plays[i].word, verb)) plays[i].play(rest);
        fflush(stdout);
    }
    for (int i = 0; i < count; i++) ds_watch_close(watches[i]);
    ds_client_close(client);
}

/* ---- the process of a service ---- */

static void must(uint32_t fault) {
    if (!fault) return;
    fprintf(stderr, "player: %s\n", word_of(fault));
    exit(fault == DS_CLIENT_LOST ? 0 : 1);
}

static void publish(const char *what, struct ds_value value) {
    char name[100];
    snprintf(name, sizeof name, "%s.%s", getenv("DS_LABEL"), what);
    must(ds_client_publish(client, name, &value));
}

/* Answers the message of a client that waits, if there is one. */
static void answer(int listener) {
    char said[100], answer[200];
    struct ds_endpoint me = ds_instance_endpoint(client);
    struct pollfd polled = {.fd = listener, .events = POLLIN};
    if (poll(&polled, 1, 0) < 1) return;
    int file = accept(listener, NULL, NULL);
    ssize_t length = recv(file, said, sizeof said, 0);
    if (length > 0) {
        snprintf(answer, sizeof answer, "%u/%u %.*s", me.generation, me.slot, (int)length, said);
        send(file, answer, strlen(answer), MSG_NOSIGNAL);
    }
    close(file);
}

/* Publishes the last label that a watch saw. */
static void look(struct ds_watch *watch) {
    struct ds_item item;
    uint32_t fault;
    while (!(fault = ds_watch_next(watch, 0, &item))) {
        char saw[200];
        if (item.kind != DS_ITEM_PUT) continue;
        snprintf(saw, sizeof saw, "%s %u/%u", item.name, item.value.endpoint.generation, item.value.endpoint.slot);
        publish("saw", ds_value_str(saw));
    }
    if (fault != DS_CLIENT_TIMEOUT) must(fault);
}

static void live(void) {
    struct ds_watch *watch = NULL;
    must(ds_instance_open(&client, 60000));
    must(ds_instance_notify("READY=1"));
    int turn = getenv("TURN") ? atoi(getenv("TURN")) : 20; /* milliseconds */
    if (getenv("DS_SUB")) must(ds_watch_open(&watch, client, "d", DS_LABEL, NULL));
    for (uint32_t number = 1;; number++) {
        publish("n", ds_value_u32(number));
        if (watch) look(watch);
        must(ds_instance_wait(client, turn));
        answer(ds_instance_listener());
    }
}

int main(int words, char **given) {
    if (words > 1 && !strcmp(given[1], "instance")) live();
    play();
}
