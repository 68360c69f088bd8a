/* Runs a server's driver table: a caller's mistakes, each move by its struct, and memory that runs out at each allocation. Link with
 * -Wl,--wrap=malloc,--wrap=realloc. */
#include "ds.h"
#include "growths.h"
#include <inttypes.h>
#include <stdio.h>
#include <stdlib.h>
#include <string.h>

enum { ROOM = 16 };

static struct ds_table table = DS_CLOSED;
static struct ds_map map = DS_CLOSED;
static struct ds_answer answer;
static struct ds_move room[ROOM];
static long waited, bad;

static const char *const kinds[] = {"start", "send", "done", "fault", "held"};

static void print_moves(void) {
    size_t given = 77;
    memset(room, 0xee, sizeof room);
    if (ds_table_moves(&table, 0, room, ROOM, &given) != 0) exit(1);
    bad += given < ROOM && room[given].kind != 0xeeeeeeee;
    for (size_t i = 0; i < given; i++)
        printf("  %s id %" PRIu64 " unit %u %u/%u\n", kinds[room[i].kind], room[i].id, room[i].unit, room[i].generation, room[i].slot);
}

static void said(const char *what, uint32_t call) {
    printf("%s: %s, %s %s, count %u\n", what, ds_refusal_text(call), ds_word_text(answer.word), ds_refusal_text(answer.refusal),
           (unsigned)answer.count);
    if (call == 0) print_moves();
}

static void make(const char *what, uint32_t server) { printf("%s: %s\n", what, ds_refusal_text(ds_table_new(&table, server))); }

static void assign_bytes(const char *what, unsigned unit, unsigned service_class, const char *label, size_t length) {
    memset(&answer, 0xee, sizeof answer);
    said(what, ds_table_assign(&table, (uint8_t)unit, (uint8_t)service_class, label, length, &answer));
}

static void assign(const char *what, unsigned unit, unsigned service_class, const char *label) {
    assign_bytes(what, unit, service_class, label, strlen(label));
}

static void take(const char *lines) {
    struct ds_answer taken;
    if (ds_map_take(&map, lines, strlen(lines), &taken) != 0 || taken.word != DS_MERGED) exit(1);
}

static void follow(const char *what) {
    memset(&answer, 0xee, sizeof answer);
    said(what, ds_table_follow(&table, &map, &answer));
}

static void submit(const char *what, uint64_t id, unsigned unit) {
    memset(&answer, 0xee, sizeof answer);
    said(what, ds_table_submit(&table, &map, id, (uint8_t)unit, &answer));
}

static void reply(const char *what, uint32_t generation, unsigned slot, uint64_t id) {
    memset(&answer, 0xee, sizeof answer);
    said(what, ds_table_reply(&table, generation, (uint16_t)slot, id, &answer));
}

static void closed(void) {
    size_t given = 77;
    memset(&answer, 0xee, sizeof answer), memset(room, 0xee, sizeof room);
    uint32_t calls[] = {
        ds_table_assign(&table, 1, DS_RS_BLOCK, "disk", 4, &answer), ds_table_follow(&table, &map, &answer),
        ds_table_submit(&table, &map, 1, 1, &answer), ds_table_reply(&table, 1, 16, 1, &answer),
        ds_table_moves(&table, 0, room, ROOM, &given), ds_table_close(&table),
    };
    for (size_t i = 0; i < sizeof calls / sizeof *calls; i++) bad += calls[i] != DS_ISCLOSED;
    printf("a closed table: %s; the places are untouched: %d\n", ds_refusal_text(calls[0]),
           answer.word == 0xeeeeeeee && room[0].kind == 0xeeeeeeee && given == 77);
    make("no server", 2);
    make("server 0xffffffff", UINT32_MAX);
    make("a file server", DS_TABLE_FILES);
    make("a table twice", DS_TABLE_NETWORK);
    follow("a closed map");
    submit("a request by a closed map", 1, 1);
    printf("the answer's place untouched: %d\n", answer.word == 0xeeeeeeee);
}

static void assignments(void) {
    static const char longest[] = "abcdefghijklmnopqrstuvwxyzabcdefghijklmnopqrstuvwxyzabcdefghijklm";
    assign("a class of a network server", 1, DS_RS_NETWORK, "disk");
    assign("a class of no driver", 1, DS_RS_SERVER, "disk");
    assign("class 0xff", 1, 255, "disk");
    assign("no label", 1, DS_RS_BLOCK, "");
    assign_bytes("no label, NULL", 1, DS_RS_BLOCK, NULL, 0);
    assign("a label with a space", 1, DS_RS_BLOCK, "di sk");
    assign_bytes("a label of 65 bytes", 1, DS_RS_BLOCK, longest, 65);
    assign_bytes("a label of 64 bytes", 9, DS_RS_CHARACTER, longest, 64);
    assign("a disk", 3, DS_RS_BLOCK, "disk");
    assign("the same unit", 3, DS_RS_CHARACTER, "tty");
    assign("a terminal", 4, DS_RS_CHARACTER, "tty");
    assign("another unit of the disk", 255, DS_RS_BLOCK, "disk");
}

static void files(void) {
    submit("a request without a driver", 5, 3);
    submit("one to a terminal without a driver", 6, 4);
    submit("the same id", 6, 3);
    submit("id 0", 0, 3);
    submit("no device", 7, 5);
    take("disk label rs 3.0 = 3/16\ntty label rs 4.0 = 4/17\n");
    follow("the drivers run");
    follow("nothing new");
    submit("a request", 7, 255);
    submit("one to a terminal", 8, 4);
    reply("a reply of an older instance", 2, 16, 7);
    reply("a reply from another slot", 3, 17, 7);
    reply("a reply to no request", 3, 16, 99);
    reply("a reply from slot 1024", 3, 1024, 7);
    reply("a reply of generation 2097152", 2097152, 16, 7);
    reply("a reply", 3, 16, 7);
    reply("a reply twice", 3, 16, 7);
    take("tty label rs 4.1 -\n! disk 3\ndisk label rs 3.1 -\n");
    follow("both are gone");
    take("disk label rs 2.0 = 2/16\n");
    submit("an older instance changes nothing", 9, 3);
    take("disk label rs 5.0 = 5/20\n");
    submit("it runs again", 10, 4);
    submit("the disk", 11, 3);
    take("disk label rs 6.0 = 6/20\n");
    submit("a device that isn't there, after a follow", 12, 77);
    submit("the same, and nothing to follow", 12, 77);
    submit("the last id", UINT64_MAX, 3);
    submit("none is above it", UINT64_MAX, 3);
}

/* Fetches moves in pieces: from each of them on, into buffers of each size. */
static void pieces(void) {
    struct ds_move all[ROOM], some[ROOM];
    size_t count, given;
    take("disk label rs 7.0 = 7/20\n");
    follow("all of the disk's again");
    if (ds_table_moves(&table, 0, all, ROOM, &count)) exit(1);
    bad += count != answer.count;
    for (size_t first = 0; first <= count + 1; first++)
        for (size_t size = 0; size < ROOM; size++) {
            memset(some, 0xee, sizeof some);
            bad += ds_table_moves(&table, first, some, size, &given) != 0;
            size_t left_over = first < count ? count - first : 0, wanted = left_over < size ? left_over : size;
            bad += given != wanted || (wanted && memcmp(some, all + first, wanted * sizeof *some) != 0);
            for (size_t i = wanted; i < ROOM; i++) bad += some[i].kind != 0xeeeeeeee;
        }
    bad += ds_table_moves(&table, SIZE_MAX, some, ROOM, &given) != 0 || given != 0;
    bad += ds_table_moves(&table, 0, NULL, 0, &given) != 0 || given != 0;
    printf("in pieces: %u moves\n", (unsigned)count);
    printf("closed: %s\n", ds_refusal_text(ds_table_close(&table)));
}

static void ports(void) {
    make("a network server", DS_TABLE_NETWORK);
    assign("a block device", 0, DS_RS_BLOCK, "eth");
    assign("a port", 0, DS_RS_NETWORK, "eth");
    assign("another port of it", 1, DS_RS_NETWORK, "eth");
    submit("a packet without a driver", 1, 0);
    take("eth label rs 7.0 = 7/30\n");
    submit("the ports start, a packet", 2, 1);
    take("eth label rs 8.0 = 8/31\n");
    follow("they start again, the packet is lost");
    printf("closed: %s\n", ds_refusal_text(ds_table_close(&table)));
}

/* In a history with memory for n allocations, what is refused for memory is called again; what it did before that stays. */
static uint32_t again(uint32_t refusal) {
    if (refusal == DS_NOROOM) left = -1, waited++;
    return refusal == DS_NOROOM;
}

/* Adds the moves of the last answer to a sum. */
static void sum_up(uint64_t *sum) {
    size_t given, first = 0;
    do {
        bad += ds_table_moves(&table, first, room, 3, &given) != 0;
        for (size_t i = 0; i < given; i++) *sum = *sum * 31 + room[i].kind * 7 + room[i].id * 3 + room[i].generation;
        first += given;
    } while (given);
    bad += first != answer.count;
}

static uint64_t run(long n) {
    static const char *const news[] = {
        "a label rs 1.0 = 1/16\nb label rs 1.0 = 1/17\n",
        "a label rs 2.0 = 2/16\n",
        "b label rs 2.0 = 2/17\na label rs 3.0 = 3/18\n",
    };
    struct ds_answer taken;
    uint64_t sum = 0, id = 1;
    left = n;
    while (again(ds_table_new(&table, DS_TABLE_FILES))) {}
    while (again(ds_map_new(&map, DS_LABEL, ".*", 2))) {}
    for (unsigned unit = 0; unit < 8; unit++)
        do bad += ds_table_assign(&table, (uint8_t)unit, unit % 2, unit < 5 ? "a" : "b", 1, &answer) != 0;
        while (again(answer.refusal));
    for (size_t at = 0; at < sizeof news / sizeof *news; at++) {
        for (unsigned unit = 0; unit < 8; unit++, id++) {
            do {
                bad += ds_table_submit(&table, &map, id, (uint8_t)unit, &answer) != 0;
                sum_up(&sum);
            } while (again(answer.refusal));
            bad += answer.refusal != 0;
        }
        do bad += ds_map_take(&map, news[at], strlen(news[at]), &taken) != 0;
        while (again(taken.refusal));
        do {
            bad += ds_table_follow(&table, &map, &answer) != 0;
            sum_up(&sum);
        } while (again(answer.refusal));
        long kept = left;
        int one = once;
        left = 0, once = 0; /* no memory at all: a follow without moves and a reply take none */
        bad += ds_table_follow(&table, &map, &answer) != 0 || answer.refusal != 0 || answer.count != 0;
        bad += ds_table_reply(&table, 9, 9, 1, &answer) != 0 || answer.refusal == DS_NOROOM;
        left = kept, once = one;
    }
    bad += ds_table_close(&table) != 0 || ds_map_close(&map) != 0;
    return sum;
}

int main(void) {
    closed();
    assignments();
    if (ds_map_new(&map, DS_LABEL, ".*", 2)) return 1;
    files();
    pieces();
    ports();
    bad += ds_map_close(&map) != 0;
    long before = asked;
    uint64_t wanted = run(-1);
    before = asked - before;
    for (int one = 0; one < 2; one++)
        for (long n = 0; n < before; n++) {
            once = one;
            bad += run(n) != wanted;
        }
    printf("each refused: some waited %d; wrong %ld\n", waited > 0, bad);
    return bad != 0;
}
