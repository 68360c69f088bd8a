/* Plays a server for the bridges of two stores, and of a third, by calls alone: a list is its log. A change of one store is added and read
 * by the other; a compaction takes in nothing that wasn't gathered; a server with another history gets everything again; questions are
 * refused, dead letters are sent on, and memory runs out. Link with -Wl,--wrap=malloc,--wrap=realloc. */
#include "ds.h"
#include "growths.h"
#include <inttypes.h>
#include <stdio.h>
#include <stdlib.h>
#include <string.h>

enum { ROOM = 4 * DS_MAX_PIECE, MOST = 32 };
static const char *const kinds[] = {"nothing", "meet", "fetch", "refill", "add", "compact"};

struct entry {
    uint64_t id;
    char lines[ROOM];
};

/* The server: its history, the log, and the snapshot with the last entry that it stands for. */
static uint64_t history = 1, next = 1, end;
static struct entry entries[MOST];
static size_t count;
static char snapshot[ROOM];

typedef uint32_t lines_of(struct ds_bridge *, size_t, char *, size_t, struct ds_given *);

struct host {
    const char *name;
    struct ds_handle store;
    struct ds_bridge bridge;
};
static struct host a = {"a", DS_CLOSED, DS_CLOSED}, b = {"b", DS_CLOSED, DS_CLOSED}, c = {"c", DS_CLOSED, DS_CLOSED};
static long bad;

static const char *said(uint32_t word) { return word ? ds_refusal_text(word) : "done"; }

static void say(const char *what, uint32_t word) { printf("%s: %s\n", what, said(word)); }

static void must(uint32_t word) {
    if (word) printf("unexpected: %s\n", said(word)), exit(1);
}

static struct ds_bridge_id id_of(uint64_t number) { return (struct ds_bridge_id){number >> 8, number & 0xff}; }

static uint64_t number_of(struct ds_bridge_id id) { return id.high << 8 | id.low; }

/* Prints each line of a text. */
static void print(const char *lines) {
    for (const char *at = lines, *stop; (stop = strchr(at, '\n')); at = stop + 1) printf("  %.*s\n", (int)(stop - at), at);
}

/* ---- a store */

static void offer(struct host *h, const char *line) {
    struct ds_answer answer;
    must(ds_call_line(&h->store, line, strlen(line), &answer));
    printf("%s: %s: %s%s%s\n", h->name, line, ds_word_text(answer.word), answer.refusal ? " " : "", ds_refusal_text(answer.refusal));
}

/* Prints everything that a store holds. */
static void all(struct host *h) {
    struct ds_answer answer;
    struct ds_given given;
    char lines[ROOM];
    must(ds_call_line(&h->store, "all", 3, &answer));
    must(ds_items(&h->store, 0, lines, sizeof lines - 1, &given));
    lines[given.length] = '\0';
    printf("%s holds %" PRIu64 "\n", h->name, answer.count);
    print(lines);
}

static void begin(struct host *h, uint64_t incarnation) {
    must(ds_open(&h->store, incarnation, 0, 4));
    must(ds_bridge_open(&h->bridge, &h->store));
}

static void leave(struct host *h) {
    must(ds_bridge_close(&h->bridge));
    must(ds_close(&h->store));
}

/* ---- the connection that asks */

static void copy(lines_of *copy_lines, struct host *h, char *lines) {
    struct ds_given given = {0, 0, DS_TOOSMALL};
    size_t length = 0;
    for (size_t first = 0; given.stop == DS_TOOSMALL; first += given.count) {
        must(copy_lines(&h->bridge, first, lines + length, length ? DS_MAX_PIECE : 30, &given));
        if (given.count == 0 && given.stop == DS_TOOSMALL) must(copy_lines(&h->bridge, first, lines + length, DS_MAX_PIECE, &given));
        length += given.length;
    }
    lines[length] = '\0';
}

static void added(struct host *h) {
    uint64_t gone = 77;
    must(ds_bridge_added(&h->bridge, &gone));
    printf("  %" PRIu64 " added\n", gone);
}

/* The server adds what is asked for as one entry. */
static void add(struct host *h) {
    struct entry *it = &entries[count];
    copy(ds_bridge_items, h, it->lines);
    if (*it->lines == '\0') return;
    it->id = next++;
    count++;
    print(it->lines);
}

static void drop(uint64_t up_to) {
    size_t gone = 0;
    while (gone < count && entries[gone].id <= up_to) gone++;
    memmove(entries, entries + gone, (count - gone) * sizeof *entries);
    count -= gone;
}

static void compact(struct host *h, const struct ds_bridge_question *question) {
    uint64_t up_to = number_of((struct ds_bridge_id){question->high, question->low});
    if (up_to <= end) {
        must(ds_bridge_refused(&h->bridge));
        puts("  refused");
        return;
    }
    add(h);
    copy(ds_bridge_snapshot, h, snapshot);
    end = up_to;
    drop(end);
    printf("  a snapshot up to %" PRIu64 "\n", end);
    print(snapshot);
    added(h);
}

static void fetch(struct host *h) {
    struct ds_bridge_taken taken;
    struct ds_bridge_id id = id_of(end);
    memset(&taken, 0xee, sizeof taken);
    must(ds_bridge_fetched(&h->bridge, &h->store, &id, snapshot, strlen(snapshot), &taken));
    printf("  %s%s, owed %x\n", taken.is_taken ? "taken" : "ignored", taken.has_dropped ? ", in part" : "", taken.owed[0]);
}

/* Asks the next question, and has the server answer it. Returns its kind. */
static uint32_t ask(struct host *h, uint8_t compaction) {
    struct ds_bridge_question it;
    memset(&it, 0xee, sizeof it);
    uint32_t word = ds_bridge_ask(&h->bridge, &h->store, compaction, 2, &it);
    if (word) {
        bad += it.kind != 0xeeeeeeee || it.count != 0xeeeeeeeeeeeeeeee;
        printf("%s asks: %s\n", h->name, said(word));
        return DS_BRIDGE_NOTHING;
    }
    printf("%s asks: %s", h->name, kinds[it.kind]);
    if (it.kind >= DS_BRIDGE_ADD) printf(" %" PRIu64, it.count);
    printf(", after %" PRIu64 "\n", number_of((struct ds_bridge_id){it.high, it.low}));
    if (it.kind == DS_BRIDGE_MEET) must(ds_bridge_met(&h->bridge, history));
    if (it.kind == DS_BRIDGE_FETCH) fetch(h);
    if (it.kind == DS_BRIDGE_ADD) add(h), added(h);
    if (it.kind == DS_BRIDGE_COMPACT) compact(h, &it);
    return it.kind;
}

/* Gathers, and asks until nothing is left to ask. */
static void send(struct host *h) {
    must(ds_bridge_gather(&h->bridge, &h->store));
    while (ask(h, 0) != DS_BRIDGE_NOTHING) continue;
}

/* ---- the connection that reads */

static void consume(struct host *h) {
    struct ds_bridge_taken taken;
    struct ds_bridge_id last = id_of(end);
    memset(&taken, 0xee, sizeof taken);
    uint32_t word = ds_bridge_consumed(&h->bridge, &h->store, &last, 1, &taken);
    if (word) {
        bad += taken.is_taken != 0xee || taken.has_dropped != 0xee || taken.owed[0] != 0xee;
        printf("  consumed: %s\n", said(word));
        return;
    }
    printf("  %s%s, owed %x\n", taken.is_taken ? "taken" : "ignored", taken.has_dropped ? ", in part" : "", taken.owed[0]);
}

/* Reads to the log's end. */
static void read_all(struct host *h) {
    struct ds_bridge_id from = {77, 77};
    uint32_t word = ds_bridge_read(&h->bridge, &from);
    if (word) {
        bad += from.high != 77 || from.low != 77;
        printf("%s reads: %s\n", h->name, said(word));
        return;
    }
    printf("%s reads after %" PRIu64 "\n", h->name, number_of(from));
    for (size_t at = 0; at < count; at++) {
        struct ds_bridge_id id = id_of(entries[at].id);
        if (entries[at].id <= number_of(from)) continue;
        must(ds_bridge_entry(&h->bridge, &id, entries[at].lines, strlen(entries[at].lines)));
        printf("  entry %" PRIu64 "\n", entries[at].id);
    }
    consume(h);
}

/* ---- what is tried */

static void calls(struct host *h) {
    struct ds_bridge_question question;
    struct ds_bridge_id id = {0, 1};
    struct ds_bridge_taken taken;
    struct ds_given given;
    uint64_t gone;
    char room[8];
    say("gather", ds_bridge_gather(&h->bridge, &h->store));
    say("ask", ds_bridge_ask(&h->bridge, &h->store, 0, 1, &question));
    say("items", ds_bridge_items(&h->bridge, 0, room, sizeof room, &given));
    say("snapshot", ds_bridge_snapshot(&h->bridge, 0, room, sizeof room, &given));
    say("met", ds_bridge_met(&h->bridge, 1));
    say("added", ds_bridge_added(&h->bridge, &gone));
    say("fetched", ds_bridge_fetched(&h->bridge, &h->store, &id, "", 0, &taken));
    say("read", ds_bridge_read(&h->bridge, &id));
    say("entry", ds_bridge_entry(&h->bridge, &id, "", 0));
    say("consumed", ds_bridge_consumed(&h->bridge, &h->store, &id, 1, &taken));
    say("refused", ds_bridge_refused(&h->bridge));
    say("differs", ds_bridge_differs(&h->bridge));
    say("reread", ds_bridge_reread(&h->bridge));
    say("parted", ds_bridge_parted(&h->bridge));
    say("close", ds_bridge_close(&h->bridge));
}

static void openings(void) {
    puts("-- closed handles");
    calls(&a);
    say("open", ds_bridge_open(&a.bridge, &a.store));
    begin(&a, 1);
    say("open again", ds_bridge_open(&a.bridge, &a.store));
    puts("-- a bridge that met no server");
    struct ds_handle kept = a.store;
    a.store = (struct ds_handle)DS_CLOSED;
    say("gather of a closed store", ds_bridge_gather(&a.bridge, &a.store));
    say("open again of a closed store", ds_bridge_open(&a.bridge, &a.store));
    a.store = kept;
    calls(&a);
    must(ds_close(&a.store));
}

/* A change of one store gets to the other. */
static void exchanges(void) {
    puts("-- a change gets to another store");
    begin(&a, 1);
    begin(&b, 2);
    offer(&b, "subscribe 0 \".*\" 1 first new");
    offer(&a, "offer eth0 label rs 1.0 = 1/16");
    ask(&a, 0);
    send(&a);
    send(&b);
    read_all(&b);
    all(&b);
    send(&b);
    read_all(&a);
    send(&a);
    read_all(&b);
    read_all(&a);
    send(&b);
}

/* D0: a change that no entry has is neither in a snapshot nor forgotten. */
static void compacts(void) {
    puts("-- a compaction takes in nothing that wasn't gathered");
    offer(&a, "offer eth1 label rs 2.0 = 2/17");
    ask(&a, 1);
    must(ds_bridge_gather(&a.bridge, &a.store));
    ask(&a, 1);
    puts("-- one that is refused leaves what it adds");
    offer(&a, "offer eth2 label rs 3.0 = 3/18");
    must(ds_bridge_gather(&a.bridge, &a.store));
    ask(&a, 1);
    send(&a);
    read_all(&b);
    all(&b);
}

/* A third host begins with the snapshot. */
static void begins(void) {
    puts("-- another host begins");
    begin(&c, 3);
    send(&c);
    read_all(&c);
    read_all(&c);
    ask(&c, 0);
    read_all(&c);
    all(&c);
    send(&c);
}

/* The server loses all. */
static void loses(void) {
    puts("-- the server is another one");
    history++, end = 0, count = 0, *snapshot = '\0';
    struct ds_bridge_id from;
    must(ds_bridge_read(&a.bridge, &from));
    must(ds_bridge_parted(&a.bridge));
    say("an entry", ds_bridge_entry(&a.bridge, &from, "", 0));
    read_all(&a);
    send(&a);
    read_all(&a);
    send(&a);
    must(ds_bridge_parted(&b.bridge));
    ask(&b, 0);
    read_all(&b);
    all(&b);
}

/* A store refuses an item, and its bridge sends it on. */
static void refuses(void) {
    puts("-- a dead letter");
    read_all(&a);
    read_all(&b);
    send(&b);
    offer(&b, "offer eth3 label rs 4.0 = 4/19");
    offer(&a, "offer eth3 label rs 4.0 = 4/20");
    send(&a);
    read_all(&b);
    must(ds_bridge_gather(&b.bridge, &b.store));
    consume(&b);
    all(&b);
    must(ds_bridge_differs(&b.bridge));
    send(&b);
}

static void orders(void) {
    puts("-- what isn't next");
    struct ds_bridge_question question;
    struct ds_bridge_id from, first, second = {0, 200}, small = {0, 1};
    struct ds_bridge_taken taken;
    offer(&b, "offer eth4 label rs 5.0 = 5/21");
    must(ds_bridge_gather(&b.bridge, &b.store));
    must(ds_bridge_ask(&b.bridge, &b.store, 0, 1, &question));
    say("ask", ds_bridge_ask(&b.bridge, &b.store, 0, 1, &question));
    say("met", ds_bridge_met(&b.bridge, 3));
    say("fetched", ds_bridge_fetched(&b.bridge, &b.store, &second, "", 0, &taken));
    must(ds_bridge_refused(&b.bridge));
    must(ds_bridge_read(&b.bridge, &from));
    say("read", ds_bridge_read(&b.bridge, &first));
    say("an entry with a small id", ds_bridge_entry(&b.bridge, &small, "", 0));
    say("an entry that isn't lines", ds_bridge_entry(&b.bridge, &second, "eth5", 4));
    say("an entry", ds_bridge_entry(&b.bridge, &second, "", 0));
    say("it again", ds_bridge_entry(&b.bridge, &second, "", 0));
    must(ds_bridge_reread(&b.bridge));
    consume(&b);
    read_all(&b);
    send(&b);
    puts("-- another store");
    say("gather", ds_bridge_gather(&b.bridge, &c.store));
}

/* ---- memory */

static long shortages;

/* Makes a call again, with memory, if it ran out. */
#define WITH_MEMORY(call) \
    do { \
        uint32_t word = (call); \
        if (word == DS_NOROOM) shortages++, left = -1, word = (call); \
        must(word); \
    } while (0)

static void copied(lines_of *copy_lines, struct host *h, const char *wanted) {
    struct ds_given given;
    char lines[ROOM];
    must(copy_lines(&h->bridge, 0, lines, sizeof lines, &given));
    if (given.stop == DS_WANTING) {
        shortages++, left = -1;
        must(copy_lines(&h->bridge, 0, lines, sizeof lines, &given));
    }
    bad += given.length != strlen(wanted) || memcmp(lines, wanted, given.length) != 0;
}

static void quietly(struct host *h, const char *line) {
    struct ds_answer answer;
    long kept = left;
    left = -1;
    must(ds_call_line(&h->store, line, strlen(line), &answer));
    left = kept;
}

/* Each call but the end of a reading, while growths of memory are refused after `most`. */
static void without_memory(long most) {
    struct host d = {"d", DS_CLOSED, DS_CLOSED};
    struct ds_bridge_question question;
    struct ds_bridge_taken taken;
    struct ds_bridge_id from;
    uint64_t gone;
    must(ds_open(&d.store, 4, 0, 4));
    quietly(&d, "offer eth0 label rs 1.0 = 1/16");
    left = most;
    WITH_MEMORY(ds_bridge_open(&d.bridge, &d.store));
    quietly(&d, "offer eth1 label rs 2.0 = 2/17");
    WITH_MEMORY(ds_bridge_gather(&d.bridge, &d.store));
    must(ds_bridge_ask(&d.bridge, &d.store, 0, 1, &question));
    must(ds_bridge_met(&d.bridge, 1));
    must(ds_bridge_ask(&d.bridge, &d.store, 0, 1, &question));
    copied(ds_bridge_items, &d, "eth0 label rs 1.0 = 1/16\n");
    WITH_MEMORY(ds_bridge_added(&d.bridge, &gone));
    must(ds_bridge_read(&d.bridge, &from));
    WITH_MEMORY(ds_bridge_entry(&d.bridge, &(struct ds_bridge_id){0, 9}, "eth0 label rs 1.0 = 1/16\n", 25));
    long kept = left;
    left = -1;
    must(ds_bridge_consumed(&d.bridge, &d.store, &from, 1, &taken));
    left = kept;
    WITH_MEMORY(ds_bridge_ask(&d.bridge, &d.store, 1, 1, &question));
    bad += question.kind != DS_BRIDGE_REFILL;
    WITH_MEMORY(ds_bridge_ask(&d.bridge, &d.store, 1, 1, &question));
    bad += question.kind != DS_BRIDGE_COMPACT || question.count != 2 || question.low != 9;
    copied(ds_bridge_snapshot, &d, "eth0 label rs 1.0 = 1/16\neth1 label rs 2.0 = 2/17\n");
    must(ds_bridge_added(&d.bridge, &gone));
    leave(&d);
}

/* An item that is read while memory runs out is held, by the store or as a dead letter, or the bridge says that one was dropped. */
static void reads_without_memory(long most) {
    struct host d = {"d", DS_CLOSED, DS_CLOSED};
    struct ds_bridge_question question;
    struct ds_bridge_taken taken;
    struct ds_bridge_id from;
    begin(&d, 4);
    must(ds_bridge_ask(&d.bridge, &d.store, 0, 1, &question));
    must(ds_bridge_met(&d.bridge, 1));
    must(ds_bridge_read(&d.bridge, &from));
    must(ds_bridge_entry(&d.bridge, &(struct ds_bridge_id){0, 9}, "eth0 label rs 1.0 = 1/16\n", 25));
    left = most;
    must(ds_bridge_consumed(&d.bridge, &d.store, &from, 1, &taken));
    long kept = left;
    left = -1;
    shortages += taken.has_dropped;
    must(ds_bridge_ask(&d.bridge, &d.store, 0, 2, &question));
    bad += question.kind != DS_BRIDGE_REFILL;
    must(ds_bridge_ask(&d.bridge, &d.store, 1, 2, &question));
    bad += question.kind != (taken.has_dropped ? DS_BRIDGE_NOTHING : DS_BRIDGE_COMPACT);
    if (!taken.has_dropped) copied(ds_bridge_items, &d, "eth0 label rs 1.0 = 1/16\n");
    left = kept;
    leave(&d);
}

static void runs_out(const char *what, void (*work)(long)) {
    for (int each = 0; each < 2; each++) {
        long most = 0;
        shortages = 0;
        do once = each, left = -1, work(most); while (left <= 0 && most++ < 1000);
        left = -1;
        bad += most == 0 || most > 999;
        printf("%s: %s\n", what, shortages ? "told" : "never");
    }
}

int main(void) {
    openings();
    exchanges();
    compacts();
    begins();
    loses();
    refuses();
    orders();
    leave(&a), leave(&b), leave(&c);
    puts("-- memory runs out");
    runs_out("at a call", without_memory);
    runs_out("at a reading's end", reads_without_memory);
    printf("%ld bad\n", bad);
    return bad != 0;
}
