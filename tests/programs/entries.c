/* Reads the entries of a map: a value of each kind, by buffers of several sizes, all entries in order, and what finds none. Counts that no
 * call takes memory. Link with -Wl,--wrap=malloc,--wrap=realloc. */
#include "ds.h"
#include "growths.h"
#include <inttypes.h>
#include <stdio.h>
#include <stdlib.h>
#include <string.h>

static const char items[] =
    "eth0.name str eth0 3.3 = \"the \\\"first\\\"\"\n"
    "eth0.mac mem eth0 3.1 = 525400123456\n"
    "eth0 u32 eth0 3.0 = 7\n"
    "eth0 label rs 3.0 = 3/16\n"
    "eth0.none str eth0 3.4 = \"\"\n"
    "eth0.old u32 eth0 3.5 -\n"
    "eth0.mtu u32 eth0 3.2 = 1500\n";

static struct ds_map map = DS_CLOSED;
static long bad;

/* Prints the value of a key, read into a buffer of `size` bytes. */
static void value_in(size_t size, uint8_t kind, const char *name, size_t name_length) {
    struct ds_answer answer;
    struct ds_given given;
    char room[DS_MAX_MEMORY + 1];
    memset(&answer, 0xee, sizeof answer), memset(&given, 0xee, sizeof given), memset(room, '?', sizeof room);
    uint32_t word = ds_map_value(&map, kind, name, name_length, &answer, size ? room : NULL, size, &given);
    if (word) {
        printf("%s\n", ds_refusal_text(word));
        bad += answer.word != 0xeeeeeeee || given.stop != 0xeeeeeeee || room[0] != '?';
        return;
    }
    printf("%s%s%s", ds_word_text(answer.word), answer.refusal ? " " : "", ds_refusal_text(answer.refusal));
    if (answer.word == DS_FOUND) printf(", kind %d", answer.kind);
    if (answer.kind == DS_U32) printf(", %" PRIu32, answer.value);
    if (answer.kind == DS_LABEL) printf(", %" PRIu32 "/%d", answer.value, answer.value_slot);
    if (answer.kind == DS_STR) printf(", `%.*s`", (int)given.length, room);
    if (answer.kind == DS_MEM) printf(", "), fflush(stdout);
    for (uint64_t at = 0; answer.kind == DS_MEM && at < given.length; at++) printf("%02x", (unsigned char)room[at]);
    printf(", %" PRIu64 " of %" PRIu64 ", stop %" PRIu32 "\n", given.length, given.count, given.stop);
    bad += given.length > size || room[given.length] != '?';
}

static void value(uint8_t kind, const char *name) {
    printf("%s, kind %d: ", name, kind);
    value_in(DS_MAX_MEMORY, kind, name, strlen(name));
}

/* Prints the key past a key. */
static void next(const char *what, uint8_t kind, const char *name, size_t name_length) {
    struct ds_map_key key, before;
    memset(&key, '?', sizeof key);
    key.kind = kind, key.name_length = (uint8_t)name_length;
    memcpy(key.name, name, name_length < sizeof key.name ? name_length : sizeof key.name);
    before = key;
    uint32_t word = ds_map_next(&map, &key);
    if (word) bad += memcmp(&key, &before, sizeof key) != 0;
    if (word) printf("%s: %s\n", what, ds_refusal_text(word));
    else printf("%s: %.*s, kind %d\n", what, key.name_length, key.name, key.kind);
}

/* Prints all entries in order. */
static void walk(const char *what) {
    struct ds_map_key key = {0};
    puts(what);
    while (!ds_map_next(&map, &key)) {
        printf("%.*s: ", key.name_length, key.name);
        value_in(DS_MAX_MEMORY, key.kind, key.name, key.name_length);
    }
}

static void take(const char *lines) {
    struct ds_answer answer;
    if (ds_map_take(&map, lines, strlen(lines), &answer)) exit(1);
    printf("%s %" PRIu64 "\n", ds_word_text(answer.word), answer.taken);
}

static void values(void) {
    puts("-- values");
    value(DS_LABEL, "eth0");
    value(DS_U32, "eth0");
    value(DS_STR, "eth0");
    value(DS_U32, "eth0.old");
    value(DS_U32, "tty");
    value(0, "eth0");
    value(3, "eth0");
    value(DS_LABEL, "eth 0");
    value(DS_LABEL, "");
    printf("a name of 65 bytes: ");
    value_in(0, DS_LABEL, "nnnnnnnnnnnnnnnnnnnnnnnnnnnnnnnnnnnnnnnnnnnnnnnnnnnnnnnnnnnnnnnnn", 65);
}

static void buffers(void) {
    static const size_t sizes[] = {0, 1, 5, 6, 7};
    puts("-- buffers");
    for (size_t at = 0; at < sizeof sizes / sizeof sizes[0]; at++) {
        printf("%zu bytes: ", sizes[at]);
        value_in(sizes[at], DS_MEM, "eth0.mac", 8);
    }
    printf("no bytes: ");
    value_in(0, DS_STR, "eth0.none", 9);
}

static void keys(void) {
    puts("-- keys");
    next("kind 0, whatever the name is", 0, "eth 0", 5);
    next("a key that isn't held", DS_STR, "eth0.mtu", 8);
    next("the last one", DS_STR, "eth0.none", 9);
    next("past all", DS_MEM, "tty", 3);
    next("kind 3", 3, "eth0", 4);
    next("kind 16", 16, "eth0", 4);
    next("no name", DS_LABEL, "", 0);
    next("no name's bytes", DS_LABEL, "eth 0", 5);
    next("a name of 65 bytes", DS_LABEL, "nnnnnnnnnnnnnnnnnnnnnnnnnnnnnnnnnnnnnnnnnnnnnnnnnnnnnnnnnnnnnnnnn", 65);
}

/* Reads by a map that changes in between. */
static void changes(void) {
    struct ds_map_key key = {0};
    puts("-- items in between");
    if (ds_map_next(&map, &key)) exit(1);
    take("eth0 u32 eth0 3.9 -\neth00 u32 eth0 3.6 = 8\n");
    printf("%.*s, and then ", key.name_length, key.name);
    if (ds_map_next(&map, &key)) exit(1);
    printf("%.*s\n", key.name_length, key.name);
    take("! eth0 3\n");
    printf("next: %s\n", ds_refusal_text(ds_map_next(&map, &key)));
    walk("-- after a sweep");
}

int main(void) {
    puts("-- a closed handle");
    value(DS_LABEL, "eth0");
    next("next", 0, "", 0);
    if (ds_map_new(&map, DS_LABEL | DS_U32 | DS_STR | DS_MEM, "eth0.*", 6)) return 1;
    puts("-- an empty map");
    value(DS_LABEL, "eth0");
    next("next", 0, "", 0);
    take(items);
    asked = 0, left = 0;
    walk("-- all entries");
    values();
    buffers();
    keys();
    printf("growths: %ld\n", asked);
    left = -1;
    changes();
    if (ds_map_close(&map)) return 1;
    printf("bad: %ld\n", bad);
    return 0;
}
