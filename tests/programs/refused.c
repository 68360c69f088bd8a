/* Refuses each allocation of the calls on a store, on a map and at a desk, alone or with all after it. Every answer is that of a run with
 * enough memory, or reports that memory ran out; no text is lost; and the handle stays usable. Link with -Wl,--wrap=malloc,--wrap=realloc. */
#include "ds.h"
#include "growths.h"
#include <stdio.h>
#include <stdlib.h>
#include <string.h>

enum { CALLS = 40 };
static struct ds_request ask[CALLS];
static const char texts[] = "eth.*a value of some length, which is a string";
static struct ds_handle store = DS_CLOSED;

static void prepare(void) {
    for (int i = 0; i < CALLS; i++) {
        struct ds_request *to = &ask[i];
        char name[16];
        to->slot = 2;
        if (i % 4 == 0) {
            to->command = DS_PUBLISH, to->kinds = DS_LABEL, to->overwrite = 1;
            to->epoch = to->value = (uint32_t)i + 1, to->value_slot = (uint16_t)(16 + i);
        } else if (i % 4 == 1) {
            to->command = DS_PUBLISH, to->kinds = DS_STR, to->generation = to->epoch = (uint32_t)i, to->slot = (uint16_t)(15 + i);
            to->text_at = 5, to->text_length = 41;
        } else if (i % 4 == 2) {
            to->command = DS_SUBSCRIBE, to->sub = (uint32_t)i, to->kinds = 15, to->initial = to->overwrite = 1, to->text_length = 5;
        } else {
            to->command = i % 8 == 3 ? DS_CHECK : DS_SNAPSHOT, to->sub = (uint32_t)i - 1, to->max = 256, to->kinds = 15;
        }
        to->name_length = (uint8_t)snprintf(name, sizeof name, "eth%d%s", i / 4, i % 4 == 1 ? ".s" : "");
        memcpy(to->name, name, to->name_length);
    }
}

/* Fetches all pieces of the last answer's text, of the store or at a seat, however often memory runs out on the way. */
static int whole(const struct ds_answer *answer, long *wanting, struct ds_seat *seat) {
    char room[128];
    struct ds_given given;
    for (size_t first = 0; first < answer->pieces; first += given.count) {
        if (seat ? ds_seat_items(seat, first, room, sizeof room, &given) : ds_items(&store, first, room, sizeof room, &given)) return 0;
        if (given.count == 0 && given.stop != DS_WANTING) return 0;
        if (given.stop == DS_WANTING) ++*wanting, left = -1;
    }
    return 1;
}

/* Makes a map, which takes some items and finds a label. However often memory runs out, it has all the items in the end. */
static int mapped(long n, long *wanting) {
    static const char items[] = "! tty 1\neth0 label rs 3.0 = 3/16\neth0.s str eth0 3.1 = \"a value\"\neth1 label rs 4.0 = 4/17\n";
    static struct ds_map map = DS_CLOSED;
    struct ds_answer said = {0};
    left = n;
    uint32_t made = ds_map_new(&map, 15, "eth.*", 5);
    if (made == DS_NOROOM) left = -1, ++*wanting, made = ds_map_new(&map, 15, "eth.*", 5);
    for (int i = 0; i < 3 && said.word != DS_MERGED; i++) {
        if (ds_map_take(&map, items, sizeof items - 1, &said)) return 0;
        if (said.word == DS_MERGED) break;
        if (said.refusal != DS_NOROOM || (said.word != DS_STOPPED && said.word != DS_REFUSED)) return 0;
        left = -1, ++*wanting;
    }
    left = -1;
    int whole = made == 0 && said.count == 4 && ds_map_label(&map, "eth1", 4, &said) == 0 && said.word == DS_FOUND && said.value == 4;
    return ds_map_close(&map) == 0 && whole;
}

/* Opens a desk and its seats. Where memory runs out, the handle stays closed, and the call is made again. */
static int opened(struct ds_desk *desk, struct ds_seat *seats, long *wanting) {
    int sound = 1;
    uint32_t word = ds_desk_open(desk, 1, 0, 256, 2);
    if (word == DS_NOROOM) {
        sound = ds_seat_open(desk, seats) == DS_ISCLOSED && ds_desk_close(desk) == DS_ISCLOSED;
        left = -1, ++*wanting, word = ds_desk_open(desk, 1, 0, 256, 2);
    }
    for (int at = 0; at < 2 && word == 0 && sound; at++) {
        word = ds_seat_open(desk, &seats[at]);
        if (word != DS_NOROOM) continue;
        sound = ds_seat_close(&seats[at]) == DS_ISCLOSED;
        left = -1, ++*wanting, word = ds_seat_open(desk, &seats[at]);
    }
    return sound && word == 0;
}

/* Makes the calls at two seats of a desk, each after the other's. A call for which memory runs out is answered, and gives its turn back. */
static int seated(long n, const struct ds_answer *full, long *wanting) {
    static struct ds_desk desk = DS_CLOSED;
    static struct ds_seat seats[2];
    struct ds_answer said;
    uint64_t next = 0;
    int missing = 0;
    left = n;
    int sound = opened(&desk, seats, wanting);
    for (int i = 0; i < CALLS && sound; i++) {
        uint64_t place = UINT64_MAX;
        sound = ds_seat_call(&seats[i % 2], &ask[i], texts, sizeof texts - 1, &said, &place) == 0;
        int is_refused = said.word == DS_REFUSED && said.refusal == DS_NOROOM;
        missing |= is_refused, *wanting += is_refused;
        sound = sound && (said.word == full[i].word || missing) && whole(&said, wanting, &seats[i % 2]);
        sound = sound && (place == next || (is_refused && place == UINT64_MAX));
        next += place == next;
    }
    left = -1;
    struct ds_request again = {.command = DS_NAMEOF, .slot = 2};
    uint64_t place = 0;
    sound = sound && ds_seat_call(&seats[1], &again, texts, 0, &said, &place) == 0 && said.word == DS_NAMED && place == next;
    return ds_seat_close(&seats[0]) == 0 && ds_seat_close(&seats[1]) == 0 && ds_desk_close(&desk) == 0 && sound;
}

/* Refuses each growth of the calls at a desk, and returns how often something was wrong. */
static long at_a_desk(const struct ds_answer *full) {
    long before = asked, waited = 0, bad = !seated(-1, full, &waited) || waited;
    before = asked - before;
    for (once = 0; once < 2; once++)
        for (long n = 0; n < before; n++) bad += !seated(n, full, &waited);
    printf("a desk: some waited %d; wrong %ld\n", waited > 0, bad);
    return bad;
}

int main(void) {
    prepare();
    static struct ds_answer full[CALLS];
    struct ds_answer said;
    long wanting = 0, bad = 0;
    if (ds_open(&store, 1, 0, 256)) return 1;
    int words[16] = {0};
    for (int i = 0; i < CALLS; i++) {
        if (ds_call(&store, &ask[i], texts, sizeof texts - 1, &full[i])) return 1;
        words[full[i].word]++;
        bad += !whole(&full[i], &wanting, NULL);
    }
    ds_close(&store);
    printf("with memory: changed %d, subscribed %d, checked %d, snapped %d, refused %d\n", words[DS_CHANGED], words[DS_SUBSCRIBED], words[DS_CHECKED], words[DS_SNAPPED], words[DS_REFUSED]);
    long all = asked, unopened = 0, noroom = 0;
    for (once = 0; once < 2; once++)
        for (long n = 0; n < all; n++) {
            left = n;
            uint32_t open = ds_open(&store, 1, 0, 256);
            unopened += open == DS_NOROOM, bad += open != 0 && open != DS_NOROOM;
            int missing = 0;
            for (int i = 0; i < CALLS && !open; i++) {
                if (ds_call(&store, &ask[i], texts, sizeof texts - 1, &said)) bad++;
                if (said.word == DS_REFUSED && said.refusal == DS_NOROOM) noroom++, missing = 1;
                else if (said.word != full[i].word && !missing) bad++;
                bad += !whole(&said, &wanting, NULL);
            }
            left = -1;
            struct ds_request again = {.command = DS_PUBLISH, .slot = 2, .kinds = DS_LABEL, .epoch = 9, .value = 9, .value_slot = 9, .name_length = 1, .name = "z"};
            uint32_t word = ds_call(&store, &again, texts, 0, &said);
            bad += open ? word != DS_ISCLOSED : word != 0 || said.word != DS_CHANGED;
            bad += ds_close(&store) != (open ? (uint32_t)DS_ISCLOSED : 0u);
        }
    printf("each refused: some not opened %d, some without room %d, some texts waited %d; wrong %ld\n", unopened > 0, noroom > 0, wanting > 0, bad);
    long before = asked, waited = 0;
    bad += !mapped(-1, &waited) || waited;
    before = asked - before;
    for (once = 0; once < 2; once++)
        for (long n = 0; n < before; n++) bad += !mapped(n, &waited);
    printf("a map: some waited %d; wrong %ld\n", waited > 0, bad);
    return bad != 0 || at_a_desk(full) != 0;
}
