/* Makes the mistakes that a caller may make. Each is answered by a word, and sound calls before and after it work. */
#include "ds.h"
#include <stdio.h>
#include <string.h>

static struct ds_handle store = DS_CLOSED;
static struct ds_answer answer;
static struct ds_given given;
static char room[64];

static void said(const char *what, uint32_t call) {
    printf("%s: call %u, word %u, refusal %u\n", what, call, answer.word, answer.refusal);
}

static struct ds_request label(const char *name) {
    struct ds_request it = {0};
    it.command = DS_PUBLISH, it.slot = 2, it.kinds = DS_LABEL, it.epoch = it.value = 3, it.value_slot = 16;
    it.name_length = (uint8_t)strlen(name);
    memcpy(it.name, name, strlen(name));
    return it;
}

static void ask(const char *what, struct ds_request it, const char *texts, size_t length) {
    memset(&answer, 0xee, sizeof answer);
    said(what, ds_call(&store, &it, texts, length, &answer));
}

static void fetch(const char *what, size_t first, size_t length) {
    memset(&given, 0xee, sizeof given), memset(room, '.', sizeof room);
    uint32_t call = ds_items(&store, first, room, length, &given);
    printf("%s: call %u, count %u, length %u, stop %u, room %.7s\n", what, call, (unsigned)given.count, (unsigned)given.length, given.stop, room);
}

static struct ds_map map = DS_CLOSED;

static void make(const char *what, unsigned kinds, const char *pattern, size_t length) {
    printf("%s: call %u\n", what, ds_map_new(&map, (uint8_t)kinds, pattern, length));
}

static void take(const char *what, const char *lines, size_t length) {
    memset(&answer, 0xee, sizeof answer);
    said(what, ds_map_take(&map, lines, length, &answer));
    printf("  count %u, taken %u, stale %u\n", (unsigned)answer.count, (unsigned)answer.taken, (unsigned)answer.stale);
}

static void where(const char *what, const char *name, size_t length) {
    memset(&answer, 0xee, sizeof answer);
    said(what, ds_map_label(&map, name, length, &answer));
}

static void maps(void) {
    char long_name[129];
    memset(long_name, 'a', sizeof long_name);
    memset(&answer, 0xee, sizeof answer);
    uint32_t call = ds_map_take(&map, "! tty 1\n", 8, &answer);
    printf("a closed map takes nothing: call %u, the answer's place untouched %d\n", call, answer.word == 0xeeeeeeee);
    call = ds_map_label(&map, "eth0", 4, &answer);
    printf("nor has it a label: call %u, the answer's place untouched %d\n", call, answer.word == 0xeeeeeeee);
    printf("nor a close: call %u\n", ds_map_close(&map));
    make("of no kind", 0, "eth.*", 5);
    make("of a kind too many", 16, "eth.*", 5);
    make("of kinds 0xff", 255, "eth.*", 5);
    make("kinds and pattern are wrong", 0, "(", 1);
    make("no pattern", 15, "(", 1);
    make("a pattern of 129 bytes", 15, long_name, 129);
    make("a pattern of bytes 0xff", 15, "\xff\xff", 2);
    make("a map", 15, "eth.*", 5);
    make("a map twice", 15, "eth.*", 5);
    take("no lines", NULL, 0);
    take("half a line", "eth0 labe", 9);
    take("a line and a half", "! tty 1\n! ", 10);
    take("bytes 0xff", "\xff\xff", 2);
    where("nothing of it", "eth0", 4);
    take("a floor and a label", "! tty 1\neth0 label rs 3.0 = 3/16\n", 33);
    take("another body of it", "! usb 1\neth0 label rs 3.0 = 3/17\n! usb 2\n", 41);
    take("an older one, and one that isn't asked for", "eth0 label rs 2.0 = 2/16\ntty0 label rs 2.0 = 2/17\n", 50);
    where("a name", "eth0", 4);
    where("a name that isn't asked for", "tty0", 4);
    where("no name", "eth 0", 5);
    where("an empty name", NULL, 0);
    where("a name of 65 bytes", long_name, 65);
    printf("closed: call %u\n", ds_map_close(&map));
    printf("closed twice: call %u\n", ds_map_close(&map));
    make("made again", 1, "", 0);
    where("it holds nothing", "eth0", 4);
    printf("closed: call %u\n", ds_map_close(&map));
}

static struct ds_answer places[4];

static void run(const char *what, const struct ds_request *asks, size_t count, size_t most) {
    size_t done = 77;
    memset(places, 0xee, sizeof places);
    uint32_t call = ds_run(&store, asks, count, NULL, 0, places, most, &done);
    printf("%s: call %u, done %u, words", what, call, (unsigned)done);
    for (int i = 0; i < 4; i++) printf(places[i].word == 0xeeeeeeee ? " -" : " %u", places[i].word);
    puts("");
}

/* Makes four requests: a label, an invalid one, all that is held, and the label again. */
static void runs(void) {
    struct ds_request asks[4] = {label("eth0"), label("eth0"), {.command = DS_SNAPSHOT}, label("eth0")};
    asks[1].command = 99;
    run("four of a closed handle", asks, 4, 4);
    printf("opened: call %u\n", ds_open(&store, 1, 0, 4));
    run("no requests", NULL, 0, 4);
    run("no place", asks, 4, 0);
    run("one place", asks, 4, 1);
    run("all that have no text, and one that has", asks, 4, 4);
    fetch("its text", 0, sizeof room);
    run("the rest", asks + 3, 1, 4);
    printf("closed: call %u\n", ds_close(&store));
}

int main(void) {
    struct ds_request it = label("eth0");
    memset(&answer, 0xee, sizeof answer);
    uint32_t call = ds_call(&store, &it, NULL, 0, &answer);
    printf("a closed handle: call %u, the answer's place untouched %d\n", call, answer.word == 0xeeeeeeee);
    call = ds_items(&store, 0, room, sizeof room, &given);
    printf("no text of it: call %u\n", call);
    printf("nor a close: call %u\n", ds_close(&store));

    printf("a ring of 0: call %u\n", ds_open(&store, 1, 0, 0));
    printf("a ring of 4097: call %u\n", ds_open(&store, 1, 0, 4097));
    printf("both wrong, the ring is named: call %u\n", ds_open(&store, 1, UINT64_MAX, 0));
    printf("a first position above 2^62: call %u\n", ds_open(&store, 1, ((uint64_t)1 << 62) + 1, 1));
    printf("opened: call %u\n", ds_open(&store, 1, 0, 4));
    printf("opened twice: call %u\n", ds_open(&store, 2, 0, 4));

    ask("a sound request", it, NULL, 0);
    memset(&it, 0xff, sizeof it);
    ask("all fields 0xff", it, NULL, 0);
    for (uint32_t command = 0; command < 12; command++) {
        memset(&it, 0xff, sizeof it), it.command = command;
        it.text_at = 0, it.text_length = 0;
        char what[40];
        snprintf(what, sizeof what, "command %u, else 0xff", command);
        ask(what, it, NULL, 0);
    }
    it = label("eth0"), it.command = 11;
    ask("a command too many", it, NULL, 0);
    it = label("eth0"), it.name_length = 0;
    ask("no name", it, NULL, 0);
    it = label("eth0"), it.name_length = 65;
    ask("a name of 65 bytes", it, NULL, 0);
    it = label("eth 0");
    ask("a name with a space", it, NULL, 0);
    it = label("eth1"), it.kinds = 3;
    ask("a key of two kinds", it, NULL, 0);
    it = label("eth1"), it.epoch = 2097152;
    ask("an epoch too large", it, NULL, 0);
    it = label("eth1"), it.slot = 1024;
    ask("a slot too large", it, NULL, 0);

    it = label("eth0.s"), it.kinds = DS_STR, it.generation = 3, it.slot = 16;
    it.text_length = 6;
    ask("a text behind the texts", it, "abcde", 5);
    it.text_at = 3, it.text_length = 3;
    ask("a text over their end", it, "abcde", 5);
    it.text_at = UINT64_MAX, it.text_length = 2;
    ask("a text that wraps", it, "abcde", 5);
    it.text_at = 2, it.text_length = UINT64_MAX;
    ask("a length that wraps", it, "abcde", 5);
    it.text_at = 0, it.text_length = 2;
    ask("a text with a newline", it, "a\n", 2);
    it.text_at = 1, it.text_length = 4;
    ask("a text within them", it, "abcde", 5);

    it = (struct ds_request){0}, it.command = DS_MERGE;
    it.text_length = 9;
    ask("half a line", it, "eth0 labe", 9);
    it.text_length = 10;
    ask("a line and a half", it, "! tty 1\n! ", 10);
    it.text_length = 8;
    ask("a line", it, "! tty 1\n", 8);

    it = (struct ds_request){0}, it.command = DS_SUBSCRIBE, it.kinds = 15, it.sub = 128;
    ask("a subscription too many", it, NULL, 0);
    it.sub = 1, it.text_length = 1;
    ask("no pattern", it, "(", 1);

    it = (struct ds_request){0}, it.command = DS_SNAPSHOT;
    ask("all that is held", it, NULL, 0);
    printf("pieces %u\n", (unsigned)answer.pieces);
    fetch("no room", 0, 0);
    fetch("a byte too little", 0, 7);
    fetch("just enough for one", 0, 8);
    fetch("the next", 1, 63);
    fetch("behind the last", 3, 63);
    fetch("far behind", SIZE_MAX, 63);
    memset(&it, 0xff, sizeof it);
    ask("no request", it, NULL, 0);
    fetch("nothing of it", 0, 63);

    printf("closed: call %u\n", ds_close(&store));
    printf("closed twice: call %u\n", ds_close(&store));
    printf("opened again: call %u\n", ds_open(&store, 2, 0, 4));
    it = label("eth0");
    ask("a sound request", it, NULL, 0);
    printf("closed: call %u\n", ds_close(&store));
    runs();
    maps();
    return 0;
}
