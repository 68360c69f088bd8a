/* A driver dies and comes back, and inet, a server that talks to it, follows it by a subscription.
 *
 * RS publishes where eth0 is, and sweeps what a dead eth0 left; the driver publishes its MTU. What a dead process sends
 * late is refused. A server that was away catches up from the journal, or takes all that is held.
 *
 *     driver [NETWORKS]       eth0 publishes an MTU for each of its networks; by default it has one */
#include "ds.h"
#include <stdio.h>
#include <stdlib.h>
#include <string.h>

enum {
    INET = 40,    /* inet's subscription */
    JOURNAL = 256 /* items that the store's journal keeps */
};

static struct ds_handle store = DS_CLOSED;
static unsigned long networks = 1;

static void give_up(const char *why) {
    fprintf(stderr, "driver: %s\n", why);
    exit(1);
}

/* Prints the text of the last answer. One ds_items fetches the pieces that fit into the room, so it is called until all
 * are printed. */
static void print_text(const struct ds_answer *answer) {
    char room[DS_MAX_PIECE];
    struct ds_given given;
    for (size_t first = 0; first < answer->pieces; first += given.count) {
        if (ds_items(&store, first, room, sizeof room, &given) != 0 || given.count == 0) {
            give_up("out of memory");
        }
        fwrite(room, 1, given.length, stdout);
    }
}

/* Sends the store a request and prints the answer: its word, whether inet is owed a notice, and its text. */
static struct ds_answer ask(const char *what, const struct ds_request *request, const char *text) {
    struct ds_answer answer;
    if (ds_ask(&store, request, text, &answer) != 0) {
        give_up("the store is closed");
    }
    printf("%s: %s", what, ds_word_text(answer.word));
    if (answer.refusal != 0) {
        printf(" %s", ds_refusal_text(answer.refusal));
    }
    puts(ds_is_owed(&answer, INET) ? ", and inet is owed a notice" : "");
    print_text(&answer);
    return answer;
}

/* Asks for items until there are no more, because one answer has at most request.max of them. */
static void ask_for_all(const char *what, struct ds_request request) {
    struct ds_answer answer;
    do {
        answer = ask(what, &request, "");
        request.position = answer.after; /* where the next since begins; a check continues by itself */
    } while (answer.pieces == request.max);
}

/* RS, which is 0/2, says that eth0 runs in this generation and slot. */
static void started(uint32_t generation, uint16_t slot) {
    struct ds_request request = {0};
    request.command = DS_PUBLISH;
    request.slot = 2;
    request.kinds = DS_LABEL;
    request.overwrite = 1;
    request.epoch = request.value = generation;
    request.value_slot = slot;
    ds_set_name(&request, "eth0");
    ask("rs: eth0 runs", &request, "");
}

/* eth0, known by its endpoint, says its MTU on each network: eth0.mtu, eth0.mtu1, eth0.mtu2 .. */
static void mtu(uint32_t generation, uint16_t slot, uint32_t bytes) {
    struct ds_request request = {0};
    char name[32] = "eth0.mtu";
    request.command = DS_PUBLISH;
    request.generation = request.epoch = generation;
    request.slot = slot;
    request.kinds = DS_U32;
    request.value = bytes;
    for (unsigned long network = 0; network < networks; network++) {
        if (network > 0) {
            snprintf(name, sizeof name, "eth0.mtu%lu", network);
        }
        ds_set_name(&request, name);
        ask("eth0: my mtu", &request, "");
    }
}

static void died(uint32_t generation) {
    struct ds_request request = {0};
    request.command = DS_SWEEP;
    request.slot = 2;
    request.value = generation;
    ds_set_name(&request, "eth0");
    ask("rs: eth0 died", &request, "");
}

static void follow(void) {
    const char *pattern = "eth0.*";
    struct ds_request request = {0};
    request.command = DS_SUBSCRIBE;
    request.sub = INET;
    request.kinds = DS_LABEL | DS_U32;
    request.initial = 1;
    request.text_length = strlen(pattern);
    ask("inet: follow eth0.*", &request, pattern);
}

static void check(void) {
    struct ds_request request = {0};
    request.command = DS_CHECK;
    request.sub = INET;
    request.max = 256;
    ask_for_all("inet: what is new", request);
}

static void who_is(uint32_t generation, uint16_t slot) {
    struct ds_request request = {0};
    request.command = DS_NAMEOF;
    request.generation = generation;
    request.slot = slot;
    ask("inet: who is 4/16", &request, "");
    puts("");
}

/* Asks for what took effect from a position on, which is refused if the journal doesn't reach back to it. Then asks for
 * all that is held. */
static void catch_up(uint64_t position) {
    struct ds_request since = {0};
    since.command = DS_SINCE;
    since.incarnation = 1;
    since.position = position;
    since.max = 256;
    ask_for_all("inet: what came from position 2 on", since);

    struct ds_request all = {0};
    all.command = DS_SNAPSHOT;
    ask("inet: all that is held", &all, "");
}

int main(int count, char **arguments) {
    if (count > 1) {
        networks = strtoul(arguments[1], NULL, 10);
    }
    if (ds_open(&store, 1, 0, JOURNAL) != 0) {
        give_up("out of memory");
    }
    follow();

    started(3, 16);
    mtu(3, 16, 1500);
    check();

    died(3);
    started(4, 16);
    mtu(3, 16, 9000); /* the dead one, late */
    mtu(4, 16, 1492);
    check();

    who_is(4, 16);
    catch_up(2);
    return ds_close(&store) != 0;
}
