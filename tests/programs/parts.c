/* Names the part that makes a request no command: for each part by hand, and in drawn requests, beside what the library answers. */
#include "ds.h"
#include <stdio.h>
#include <stdlib.h>
#include <string.h>

enum { DRAWN = 10000, TEXTS = 1100 };

static struct ds_handle store = DS_CLOSED;
static char texts[TEXTS]; /* all letters, but for a newline at the end */

static struct ds_request sound(uint32_t command) {
    struct ds_request it = {0};
    it.command = command, it.generation = 3, it.slot = 16, it.epoch = 3, it.seq = 1, it.max = 1, it.kinds = DS_STR, it.name_length = 4;
    memcpy(it.name, "eth0", 4);
    return it;
}

static uint32_t word_of(const struct ds_request *request) {
    struct ds_answer answer;
    if (ds_call(&store, request, texts, sizeof texts, &answer) != 0) exit(1);
    return answer.word;
}

/* Prints the part of a request that is no command, and whether the library says so, too. */
static void show(struct ds_request it) {
    const char *part = ds_request_fault(&it, texts, sizeof texts);
    printf("%s, %s\n", part == NULL ? "none" : part, ds_word_text(word_of(&it)));
}

static void one_by_one(void) {
    struct ds_request it;
    it = sound(DS_MERGE + 1), show(it);
    it = sound(DS_PUBLISH), it.text_at = TEXTS + 1, show(it);
    it = sound(DS_PUBLISH), it.text_at = TEXTS, it.text_length = 1, show(it);
    it = sound(DS_PUBLISH), it.text_at = 1, it.text_length = UINT64_MAX, show(it);
    it = sound(DS_DELETE), it.generation = 2097152, show(it);
    it = sound(DS_NAMEOF), it.slot = 1024, show(it);
    it = sound(DS_SWEEP), it.name_length = 0, show(it);
    it = sound(DS_RETRIEVE), it.name_length = 65, show(it);
    it = sound(DS_RETRIEVE), it.name[3] = ' ', show(it);
    it = sound(DS_RETRIEVE), it.kinds = DS_STR | DS_MEM, show(it);
    it = sound(DS_SUBSCRIBE), it.kinds = 16, show(it);
    it = sound(DS_SINCE), it.under = 1, it.kinds = 0, show(it);
    it = sound(DS_PAGE), it.behind = 3, show(it);
    it = sound(DS_PUBLISH), it.epoch = 2097152, show(it);
    it = sound(DS_SWEEP), it.value = 2097152, show(it);
    it = sound(DS_PUBLISH), it.kinds = DS_LABEL, it.value = 2097152, show(it);
    it = sound(DS_PUBLISH), it.kinds = DS_LABEL, it.value_slot = 1024, show(it);
    it = sound(DS_PUBLISH), it.text_length = 257, show(it);
    it = sound(DS_PUBLISH), it.kinds = DS_MEM, it.text_length = 1025, show(it);
    it = sound(DS_PUBLISH), it.text_at = TEXTS - 1, it.text_length = 1, show(it);
    it = sound(DS_MERGE), it.text_length = 4, show(it);
    it = sound(DS_PUBLISH), it.text_length = 256, show(it);
    it = sound(DS_PUBLISH), it.kinds = DS_MEM, it.text_length = 1024, show(it);
}

/* Names of 64 and 65 bytes, and texts of C strings, by the calls that set lengths. */
static void by_strings(void) {
    char name[66];
    struct ds_answer answer;
    struct ds_request it = sound(DS_RETRIEVE);
    memset(name, 'n', sizeof name);
    name[64] = 0, ds_set_name(&it, name);
    printf("64 bytes: %u, %s\n", it.name_length, ds_word_text(word_of(&it)));
    name[64] = 'n', name[65] = 0, ds_set_name(&it, name), show(it);
    it = (struct ds_request){.command = DS_MERGE, .text_at = 7, .text_length = 9}; /* which ds_ask sets */
    if (ds_ask(&store, &it, "! tty 1\neth0 label rs 3.0 = 3/16\n", &answer) != 0) exit(1);
    printf("merged %u\n", (unsigned)answer.taken);
    it = sound(DS_PUBLISH), ds_set_name(&it, "hello");
    if (ds_ask(&store, &it, "hello, too", &answer) != 0) exit(1);
    it.command = DS_RETRIEVE;
    char text[16];
    struct ds_given given;
    printf("%s", ds_word_text(answer.word));
    if (ds_ask(&store, &it, "", &answer) != 0 || ds_items(&store, 0, text, sizeof text, &given) != 0) exit(1);
    printf(", found %.*s\n", (int)given.length, text);
    struct ds_handle closed = DS_CLOSED;
    memset(&answer, 0, sizeof answer);
    printf("closed: %s", ds_refusal_text(ds_ask(&closed, &it, "", &answer)));
    printf(", %s %s\n", ds_word_text(answer.word), ds_refusal_text(answer.refusal));
}

static uint32_t seed = 1;

static uint32_t drawn(uint32_t below) {
    seed = seed * 1103515245 + 12345;
    return (seed >> 8) % below;
}

/* Spoils a few parts of a sound request. */
static struct ds_request spoiled(void) {
    static const char bytes[] = {'a', 'Z', '9', '.', '_', '-', ' ', '/', '@', '[', '`', '{', ':', ',', '\n', '\0', (char)0x80, (char)0xff};
    struct ds_request it = sound(drawn(DS_MERGE)); /* any command but a merge */
    it.kinds = (uint8_t)(1 << drawn(4)), it.text_length = drawn(20), it.text_at = drawn(20);
    if (drawn(4) == 0) it.generation = 2097150 + drawn(4);
    if (drawn(4) == 0) it.slot = (uint16_t)(1022 + drawn(4));
    if (drawn(4) == 0) it.epoch = 2097150 + drawn(4);
    if (drawn(4) == 0) it.value = 2097150 + drawn(4), it.value_slot = (uint16_t)(1022 + drawn(4));
    if (drawn(4) == 0) it.name_length = (uint8_t)drawn(80), memset(it.name, 'n', sizeof it.name);
    if (drawn(4) == 0) it.name[drawn(5)] = bytes[drawn(sizeof bytes)];
    if (drawn(4) == 0) it.kinds = (uint8_t)drawn(20);
    if (drawn(3) == 0) it.under = 1;
    if (drawn(3) == 0) it.behind = (uint8_t)drawn(10);
    if (drawn(8) == 0) it.text_at = drawn(2) == 0 ? TEXTS - 10 : TEXTS + drawn(3), it.text_length = drawn(14);
    if (drawn(8) == 0) it.text_at = 0, it.text_length = (drawn(2) == 0 ? 255 : 1023) + drawn(4);
    return it;
}

int main(void) {
    int faults = 0, differ = 0;
    memset(texts, 'x', sizeof texts - 1);
    texts[sizeof texts - 1] = '\n';
    if (ds_open(&store, 1, 0, 64) != 0) {
        return 1;
    }
    one_by_one();
    by_strings();
    for (int at = 0; at < DRAWN; at++) {
        struct ds_request it = spoiled();
        int is_fault = ds_request_fault(&it, texts, sizeof texts) != NULL;
        faults += is_fault, differ += is_fault != (word_of(&it) == DS_NOREQUEST);
    }
    printf("drawn requests: some are no command %d, some are %d, %d differ\n", faults > DRAWN / 4, faults < DRAWN * 3 / 4, differ);
    return ds_close(&store) != 0;
}
