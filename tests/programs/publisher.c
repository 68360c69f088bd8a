/* A publisher counts its versions, and a death ends what it published.
 *
 * publisher.out is worked out by hand. By the rule of ds_publisher_open, a count begins at 1 more than the greatest number of the changes,
 * tombstones too, that the store holds of this owner in this generation, and at 0 without one; 4294967295 is the last. Labels are RS's own.
 * tombstones too, that the store holds of this owner in this generation, and at 0 without one; 4294967295 is the last. Labels are of RS.
 * owed to both. */
#include "ds.h"
#include <stdio.h>
#include <string.h>

static struct ds_handle store = DS_CLOSED;
static struct ds_publisher eth0 = {9, 9, 9};

static void said(const char *what, uint32_t call, const struct ds_answer *answer) {
    printf("%s: call %u, %s %s, count %u, owed %d%d\n", what, call, ds_word_text(answer->word), ds_refusal_text(answer->refusal),
           (unsigned)answer->count, ds_is_owed(answer, 40), ds_is_owed(answer, 41));
}

static void ask(const char *what, struct ds_request request, const char *text) {
    struct ds_answer answer;
    said(what, ds_ask(&store, &request, text, &answer), &answer);
}

static void opened(const char *what, uint32_t generation, uint16_t slot) {
    const char *word = ds_refusal_text(ds_publisher_open(&store, generation, slot, &eth0));
    printf("%s: %s, %u/%u at %u\n", what, word, eth0.generation, eth0.slot, eth0.number);
}

static void publish(const char *what, const char *name, uint32_t value) {
    struct ds_request request = {0};
    request.command = DS_PUBLISH, request.kinds = DS_U32, request.value = value, request.overwrite = 1;
    ds_set_name(&request, name), ds_publisher_draw(&eth0, &request);
    ask(what, request, "");
}

static void publish_memory(const char *name) {
    static const char value[1024] = "memory";
    struct ds_request request = {0};
    struct ds_answer answer;
    request.command = DS_PUBLISH, request.kinds = DS_MEM, request.text_length = sizeof value;
    ds_set_name(&request, name), ds_publisher_draw(&eth0, &request);
    said(name, ds_call(&store, &request, value, sizeof value, &answer), &answer);
}

static void started(const char *what, const char *label, uint32_t generation, uint16_t slot) {
    struct ds_answer answer;
    uint32_t call = ds_driver_started(&store, label, generation, slot, &answer);
    said(what, call, &answer);
}

static void died(const char *what, const char *label, uint32_t generation) {
    struct ds_answer answer;
    uint32_t call = ds_driver_died(&store, label, generation, &answer);
    said(what, call, &answer);
}

static void follow(uint32_t sub, const char *pattern, uint8_t kinds) {
    ask("follow", (struct ds_request){.command = DS_SUBSCRIBE, .sub = sub, .kinds = kinds}, pattern);
}

static void show(void) {
    char room[DS_MAX_PIECE];
    struct ds_answer answer;
    struct ds_given given;
    if (ds_call_line(&store, "all", 3, &answer) == 0 && ds_items(&store, 0, room, sizeof room, &given) == 0) {
        printf("%.*s", (int)given.length, room);
    }
}

static void lives(void) {
    started("closed", "eth0", 3, 16), died("closed", "eth0", 3), opened("closed", 3, 16);
    if (ds_open(&store, 1, 0, 256) != 0) return;
    opened("no label", 3, 16), opened("no endpoint", 3, 1024); /* eth0 is unchanged, 9/9 at 9 */
    follow(40, "eth0", DS_LABEL), follow(41, "mtu", DS_U32);
    started("eth0 runs", "eth0", 3, 16), started("tty runs", "tty", 4, 17), started("no name", "a b", 5, 18);
    opened("eth0", 3, 16);                                          /* of eth0 the store has a label alone: 0 */
    publish("mtu", "mtu", 1500), publish("mtu again", "mtu", 9000); /* 3.0, 3.1 */
    struct ds_request delete = {.command = DS_DELETE, .kinds = DS_U32};
    ds_set_name(&delete, "mtu"), ds_publisher_draw(&eth0, &delete), ask("no mtu", delete, ""); /* 3.2 */
    opened("eth0 again", 3, 16), publish("mtu", "mtu", 1400); /* the tombstone 3.2 is held: 3, and mtu is 3.3 */
}

static void deaths(void) {
    died("eth0 of another generation", "eth0", 2); /* the label 3.0 stays; the floor rises from none to 2, below mtu's 3.3 */
    died("eth0", "eth0", 3), show();               /* the label ends by 3.1; the floor 3 drops mtu, which is 1 */
    died("eth0 once more", "eth0", 3);             /* the floor 3 is held: nothing is owed */
    opened("dead", 3, 16);                         /* no live label has 3/16: eth0 is unchanged, 4 after 3.3 */
    publish("late", "mtu", 1);                     /* 3.4 */
    started("dead", "eth0", 3, 16);                /* 3.0 is older than the tombstone 3.1 */
    started("eth0 runs", "eth0", 5, 16), died("late death", "eth0", 3); /* the label 5.0 stays, and the floor is 3 already */
    opened("a new count", 5, 16);                                       /* no change of generation 5 is held: 0 */
    /* None counts: another owner, an older generation, an owner whose name begins with eth0, and the floor of an owner named 5. */
    ask("others", (struct ds_request){.command = DS_MERGE}, "a u32 tty 5.70 = 1\nb u32 eth0 4.80 = 1\nc u32 eth00 5.90 = 1\n! 5 5\n");
    opened("others' numbers", 5, 16); /* still 0 */
    ask("the last", (struct ds_request){.command = DS_MERGE}, "z u32 eth0 5.4294967295 -\n");
    opened("no number left", 5, 16); /* the last number is held, and only tombstones may have it */
    publish("one too many", "mtu", 1), publish("two too many", "mtu", 1);
}

static void many(void) {
    char name[] = "m0";
    for (started("disk runs", "disk", 6, 19), opened("disk", 6, 19); name[1] <= '9'; name[1]++) publish_memory(name);
    opened("disk again", 6, 19); /* 6.0 to 6.9 are held, in more lines than ds_items writes at once: 10 */
    died("no name", "", 6), died("no generation", "disk", 3000000);
    ds_close(&store);
}

int main(void) {
    lives(), deaths(), many();
    return 0;
}
