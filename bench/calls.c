/* calls WHAT COUNT: makes COUNT calls of a kind to a store with 16 drivers, each with its label, a number and 1024 bytes. line-WHAT makes them
 * by lines, told-WHAT also fetches the text of each answer, and bare-WHAT does so for lines without a newline. memory retrieves the bytes.
 * calls.rs and calls.py make the calls that aren't lines. check checks a subscription that was shown everything. beat, start and submit
 * call RS and a driver table: heartbeats, at most 64 starts, and requests with their replies. See bench/README.md. */
#include "ds.h"
#include <stdio.h>
#include <stdlib.h>
#include <string.h>

enum { DRIVERS = 16, BYTES = 1024 };

/* A driver's line. In a `publish`, `digit` is the place of the last digit of the change's number; elsewhere it is 0. */
struct line { char text[64]; size_t length, digit; };

static struct ds_handle store = DS_CLOSED;
static struct ds_request asks[DRIVERS];
static struct line lines[DRIVERS];

static struct ds_request label(uint32_t d) {
    struct ds_request it = {.command = DS_PUBLISH, .slot = 2, .kinds = DS_LABEL, .epoch = d + 1, .value = d + 1, .value_slot = (uint16_t)(16 + d)};
    it.name_length = (uint8_t)sprintf(it.name, "d%u", d);
    return it;
}

static struct ds_request number(uint32_t d) {
    struct ds_request it = {.command = DS_PUBLISH, .generation = d + 1, .slot = (uint16_t)(16 + d), .kinds = DS_U32, .epoch = d + 1, .overwrite = 1};
    it.name_length = (uint8_t)sprintf(it.name, "d%u.mtu", d);
    return it;
}

static struct ds_request memory(uint32_t d) {
    struct ds_request it = number(d);
    it.kinds = DS_MEM, it.text_length = BYTES;
    return it;
}

static unsigned long called(const struct ds_request *ask) {
    struct ds_answer said;
    if (ds_call(&store, ask, NULL, 0, &said) || said.word >= DS_STOPPED) exit(1);
    return said.value;
}

/* Fetches the bytes that a driver published, and returns the last one. */
static unsigned long fetched(const struct ds_request *ask) {
    static char room[BYTES];
    struct ds_given given;
    called(ask);
    if (ds_items(&store, 0, room, sizeof room, &given) || given.length != BYTES) exit(1);
    return (unsigned char)room[BYTES - 1];
}

/* Returns a line without its newline. Numbers of changes begin at 100000, so that they keep their width. */
static struct line line_of(const char *what, uint32_t d) {
    struct line it = {.length = 0};
    if (strstr(what, "publish")) {
        it.length = (size_t)sprintf(it.text, "publish %u/%u over d%u.mtu u32 %u.100000", d + 1, 16 + d, d, d + 1);
        it.digit = it.length - 1;
        it.length += (size_t)sprintf(it.text + it.length, " = 1500");
    }
    if (strstr(what, "retrieve")) it.length = (size_t)sprintf(it.text, "retrieve d%u.mtu u32", d);
    if (strstr(what, "nameof")) it.length = (size_t)sprintf(it.text, "nameof %u/%u", d + 1, 16 + d);
    return it;
}

/* Raises the number of the driver's changes by one. */
static void step(char *digit) {
    while (*digit == '9') *digit-- = '0';
    ++*digit;
}

static unsigned long called_by(const struct line *line) {
    struct ds_answer said;
    if (ds_call_line(&store, line->text, line->length, &said) || said.word >= DS_STOPPED) exit(1);
    return said.value;
}

/* Fetches the text of the last answer, and returns its length. */
static unsigned long told(void) {
    struct ds_given given;
    char room[128];
    if (ds_text(&store, 0, room, sizeof room, &given) || given.stop != DS_WHOLE) exit(1);
    return given.length;
}

/* Opens RS with 64 services, and starts `count` of them. */
static int start(unsigned long count) {
    static char settings[64 * 64];
    static struct ds_rs_event ups[64];
    struct ds_settings_fault fault;
    struct ds_answer said;
    char *to = settings;
    for (int i = 0; i < 64; i++) {
        to += sprintf(to, "[[service]]\nlabel = \"s%d\"\nclass = \"server\"\nlimit = 1\n", i);
        ups[i].kind = DS_RS_UP;
        ups[i].label_length = (uint8_t)sprintf(ups[i].label, "s%d", i);
    }
    if (ds_open(&store, 1, 0, 256) || ds_rs_open(&store, settings, (size_t)(to - settings), 1, 16, &fault)) return 0;
    for (unsigned long i = 0; i < count; i++)
        if (ds_rs_event(&store, &ups[i], &said) || said.word != DS_ACTED) return 0;
    return 1;
}

/* Sends heartbeats of one instance, each a tick after the last. */
static int beat(unsigned long count) {
    struct ds_answer said;
    struct ds_rs_event event = {.kind = DS_RS_BEAT, .generation = 1, .slot = 16};
    if (!start(1)) return 0;
    for (; event.tick < count; event.tick++)
        if (ds_rs_event(&store, &event, &said) || said.word != DS_ACTED) return 0;
    return 1;
}

/* Submits requests to one block driver, each answered before the next. */
static int submit(unsigned long count) {
    static const char label[] = "disk label rs 4.0 = 4/16\n";
    struct ds_map drivers = DS_CLOSED;
    struct ds_table table = DS_CLOSED;
    struct ds_answer said;
    if (ds_map_new(&drivers, DS_LABEL, ".*", 2) || ds_map_take(&drivers, label, sizeof label - 1, &said)) return 0;
    if (ds_table_new(&table, DS_TABLE_FILES) || ds_table_assign(&table, 3, DS_RS_BLOCK, "disk", 4, &said)) return 0;
    for (unsigned long id = 1; id <= count; id++) {
        struct ds_move move;
        size_t moves;
        if (ds_table_submit(&table, &drivers, id, 3, &said) || ds_table_moves(&table, 0, &move, 1, &moves) || move.kind != DS_MOVE_SEND) return 0;
        if (ds_table_reply(&table, 4, 16, id, &said) || ds_table_moves(&table, 0, &move, 1, &moves) || move.kind != DS_MOVE_DONE) return 0;
    }
    return 1;
}

/* Subscribes to everything from now on, and makes each driver's call a check, which finds nothing. */
static int subscribe(void) {
    static const char all[] = ".*";
    struct ds_request ask = {.command = DS_SUBSCRIBE, .kinds = 15, .text_length = sizeof all - 1};
    struct ds_answer said;
    if (ds_call(&store, &ask, all, sizeof all - 1, &said) || said.word != DS_SUBSCRIBED) return 0;
    for (uint32_t d = 0; d < DRIVERS; d++) asks[d] = (struct ds_request){.command = DS_CHECK, .max = 256};
    return 1;
}

/* Opens the store, and publishes what its drivers have. */
static int prepare(const char *what, int fetches) {
    static const char bytes[BYTES];
    struct ds_answer said;
    if (ds_open(&store, 1, 0, 256)) return 0;
    for (uint32_t d = 0; d < DRIVERS; d++) {
        struct ds_request ask = label(d);
        called(&ask);
        ask = memory(d);
        if (ds_call(&store, &ask, bytes, sizeof bytes, &said) || said.word != DS_CHANGED) return 0;
        asks[d] = fetches ? ask : number(d);
        if (fetches) asks[d].command = DS_RETRIEVE, asks[d].text_length = 0;
        else called(&asks[d]);
        if (!strcmp(what, "retrieve")) asks[d].command = DS_RETRIEVE;
        if (!strcmp(what, "nameof")) asks[d].command = DS_NAMEOF;
        lines[d] = line_of(what, d);
        if (strncmp(what, "bare-", 5)) lines[d].text[lines[d].length++] = '\n';
    }
    return strcmp(what, "check") || subscribe();
}

int main(int count, char **given) {
    if (count != 3) return 2;
    const char *what = given[1];
    int by_line = strchr(what, '-') != NULL, is_told = by_line && strncmp(what, "line-", 5), fetches = !strcmp(what, "memory");
    unsigned long calls = strtoul(given[2], NULL, 10), sum = 0;
    if (!strcmp(what, "start")) return !start(calls);
    if (!strcmp(what, "beat")) return !beat(calls);
    if (!strcmp(what, "submit")) return !submit(calls);
    if (!prepare(what, fetches)) return 1;
    for (unsigned long i = 1; i <= calls; i++) {
        uint32_t d = i % DRIVERS;
        if (by_line) {
            if (lines[d].digit) step(lines[d].text + lines[d].digit);
            sum += called_by(&lines[d]);
            if (is_told) sum += told();
        } else {
            if (asks[d].command == DS_PUBLISH) asks[d].seq = asks[d].value = (uint32_t)i;
            sum += fetches ? fetched(&asks[d]) : called(&asks[d]);
        }
    }
    printf("%lu\n", sum);
    return ds_close(&store) != 0;
}
