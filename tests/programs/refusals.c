/* Prints the words of ds_refusal_text: for each number, and beside what ds_text returns for each refusal of a script's line. Also prints
 * the words of ds_word_text, and the library's version. */
#include "ds.h"
#include <inttypes.h>
#include <stdio.h>
#include <stdlib.h>
#include <string.h>

enum {
    MOST_KEYS = 4096,
    TOO_LONG = 129, /* bytes of a pattern */
    RING = 256
};

static const uint64_t last_position = UINT64_C(1) << 62;
static struct ds_handle store = DS_CLOSED;

static void reopen(uint64_t first, uint32_t ring) {
    ds_close(&store);
    if (ds_open(&store, 1, first, ring) != 0) {
        exit(1);
    }
}

/* Sends a line. If it is refused, prints the refusal in both ways. */
static void ask(const char *line) {
    struct ds_answer said;
    struct ds_given given;
    char text[64];
    if (ds_call_line(&store, line, strlen(line), &said) != 0) {
        exit(1);
    }
    if (said.refusal != 0) {
        if (ds_text(&store, 0, text, sizeof text, &given) != 0) {
            exit(1);
        }
        printf("%s: %.*s", ds_refusal_text(said.refusal), (int)given.length, text);
    }
}

static void numbers(void) {
    for (uint32_t number = 0; number <= DS_NOLINES + 1; number++) {
        printf("%" PRIu32 " %s\n", number, ds_refusal_text(number));
    }
    printf("%" PRIu32 " %s\n", UINT32_MAX, ds_refusal_text(UINT32_MAX));
}

static void words(void) {
    for (uint32_t number = 0; number <= DS_MOVED + 1; number++) {
        printf("word %" PRIu32 " %s\n", number, ds_word_text(number));
    }
    printf("the library's version is %s\n", strcmp(ds_version(), DS_VERSION) ? "another one" : "the header's");
}

static void patterns(void) {
    char line[TOO_LONG + 40] = "subscribe 20 \"";
    size_t length = strlen(line);
    memset(line + length, 'a', TOO_LONG);
    strcpy(line + length + TOO_LONG, "\" 1 later new");
    ask(line);
    ask("subscribe 20 \"(\" 1 later new");
    ask("subscribe 20 \"a{4000}\" 1 later new");
}

static void changes(void) {
    ask("publish 0/2 new rs label 1.0 = 1/16");
    ask("publish 0/2 new eth0 label 3.0 = 3/16");
    ask("publish 3/16 new mtu u32 4.0 = 1500");
    ask("publish 9/99 new mtu u32 9.0 = 1500");
    ask("publish 3/16 new eth1 label 4.0 = 4/17");
    ask("offer mtu u32 tty 1.0 = 1500");
    ask("publish 3/16 new mtu u32 3.0 = 1500");
    ask("offer mtu u32 tty 1.0 = 9000");
    ask("publish 3/16 new id u32 3.5 = 1");
    ask("publish 3/16 over id u32 3.4 = 2");
    ask("publish 3/16 new id u32 3.6 = 2");
}

static void questions(void) {
    ask("subscribe 128 \"eth.*\" 1 later new");
    ask("check 20 0");
    ask("retrieve none u32");
    ask("since * 2 0 1");
    ask("since * 1 99 1");
    ask("since * 1 0 1");
}

static void full(void) {
    char line[64];
    for (int key = 0; key <= MOST_KEYS; key++) {
        snprintf(line, sizeof line, "offer k%d u32 eth0 1.0 = 1", key);
        ask(line);
    }
}

static void worn(void) {
    ask("publish 0/2 new eth0 label 3.0 = 3/16");
}

/* Opens RS with a settings text, and prints the refusal. */
static void settle(const char *text, uint32_t next) {
    struct ds_settings_fault fault;
    printf("settings: %s\n", ds_refusal_text(ds_rs_open(&store, text, strlen(text), next, 16, &fault)));
}

/* Provokes each fault of a settings text, and each of an event. */
static void services(void) {
    settle("[[service", 1);
    settle("services = []", 1);
    settle("service = [{label = \"disk\", class = \"block\"}]", 1);
    settle("slots = 0", 1);
    settle("service = [{label = \"a\", class = \"server\"}, {label = \"a\", class = \"server\"}]", 1);
    settle("service = [{label = \"a\", class = \"block\", unit = 3}, {label = \"b\", class = \"character\", unit = 3}]", 1);
    settle("service = [{label = \"a\", class = \"server\", publishes = [\"x\", \"x\"]}]", 1);
    settle("service = [{label = \"disk\", class = \"block\", unit = 3}]", 0);
    settle("service = [{label = \"disk\", class = \"block\", unit = 3}]", 1);
    ask("settings service = []");
    ask("service up tty 0");
    ask("service down disk 4");
    ask("service up disk 4");
    ask("service up disk 4");
    ask("service down disk 3");
    ask("tick 4611686018427387905");
    ask("death 1/16 7 4");
    ask("beat 1/17 4");
    ask("publish 0/2 over disk label 2.0 = 2/16");
}

/* Runs RS with its last generation, and RS with one slot for two services. */
static void spent(void) {
    static const char few[] = "slots = 1\n[[service]]\nlabel = \"a\"\nclass = \"server\"\n[[service]]\nlabel = \"b\"\nclass = \"server\"\n";
    settle(few, 2097152);
    ask("service up a 0");
    reopen(0, RING);
    settle(few, 1);
    ask("service up a 0");
    ask("service up b 0");
}

static void calls(void) {
    struct ds_map map = DS_CLOSED;
    printf("open: %s\n", ds_refusal_text(ds_open(&store, 1, 0, RING)));
    ds_close(&store);
    printf("close: %s\n", ds_refusal_text(ds_close(&store)));
    printf("ring 0: %s\n", ds_refusal_text(ds_open(&store, 1, 0, 0)));
    printf("first above the last: %s\n", ds_refusal_text(ds_open(&store, 1, last_position + 1, RING)));
    printf("map of no kinds: %s\n", ds_refusal_text(ds_map_new(&map, 0, "", 0)));
}

int main(void) {
    numbers();
    words();
    reopen(0, 1);
    patterns();
    changes();
    questions();
    reopen(0, RING);
    full();
    reopen(last_position, RING);
    worn();
    reopen(0, RING);
    services();
    reopen(0, RING);
    spent();
    calls();
    return 0;
}
