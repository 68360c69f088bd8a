/* Four drivers, each a thread, publish how far they are in one store, while a client waits for their notices. Each thread calls the store at
 * a seat of its own, and no mutex is needed.
 *
 *     threads [CHANGES]        how many changes each driver makes; by default 1000 */
#include "ds.h"
#include <pthread.h>
#include <stdio.h>
#include <stdlib.h>

enum { DRIVERS = 4, FIRST_SLOT = 16, SERVER = 0, JOURNAL = 256 };

static unsigned long changes = 1000;

static void give_up(const char *why) {
    fprintf(stderr, "threads: %s\n", why);
    exit(1);
}

/* Sends a request whose text is a C string, and returns the answer. Waits while another thread's call is carried out. */
static struct ds_answer ask(struct ds_seat *seat, struct ds_request request, const char *text, uint64_t *place) {
    struct ds_answer answer;
    request.text_length = strlen(text);
    uint32_t refusal = ds_seat_wait(seat, &request, text, strlen(text), &answer, place);
    if (refusal != 0 || answer.refusal != 0) {
        give_up(ds_refusal_text(refusal != 0 ? refusal : answer.refusal));
    }
    return answer;
}

struct driver {
    struct ds_seat seat;
    unsigned number;
    uint64_t place; /* of its last change */
};

/* The names are disk0, disk1 .. */
static void set_name(struct ds_request *request, unsigned number) {
    char name[16];
    snprintf(name, sizeof name, "disk%u", number);
    ds_set_name(request, name);
}

/* Publishes 1, 2, 3 .. under the driver's own name. */
static void *drive(void *argument) {
    struct driver *driver = argument;
    struct ds_request request = {.command = DS_PUBLISH, .kinds = DS_U32, .generation = 1, .epoch = 1, .overwrite = 1};
    request.slot = (uint16_t)(FIRST_SLOT + driver->number);
    set_name(&request, driver->number);
    for (unsigned long at = 1; at <= changes; at++) {
        request.seq = request.value = (uint32_t)at;
        ask(&driver->seat, request, "", &driver->place);
    }
    return NULL;
}

/* Takes notices, and counts what each check shows, until every driver has made its last change. */
static void *watch(void *argument) {
    struct ds_seat *seat = argument;
    struct ds_request check = {.command = DS_CHECK, .sub = 8 * SERVER, .max = DRIVERS};
    struct ds_request retrieve = {.command = DS_RETRIEVE, .kinds = DS_U32};
    uint64_t place, floor;
    uint8_t bits;
    for (unsigned done = 0; done < DRIVERS;) {
        if (ds_seat_take(seat, SERVER, &bits, &floor) != 0) {
            give_up("the seat is closed");
        }
        if (bits == 0) {
            sched_yield();
            continue;
        }
        ask(seat, check, "", &place);
        for (done = 0; done < DRIVERS; done++) {
            struct ds_answer answer;
            set_name(&retrieve, done);
            if (ds_seat_wait(seat, &retrieve, NULL, 0, &answer, &place) != 0 || answer.word != DS_FOUND || answer.value < changes) {
                break;
            }
        }
    }
    return NULL;
}

/* RS publishes where each driver runs, and subscribes the client. */
static void begin(struct ds_seat *rs) {
    struct ds_request label = {.command = DS_PUBLISH, .slot = 2, .kinds = DS_LABEL, .epoch = 1, .value = 1};
    struct ds_request subscribe = {.command = DS_SUBSCRIBE, .sub = 8 * SERVER, .kinds = DS_U32, .initial = 1};
    uint64_t place;
    for (unsigned at = 0; at < DRIVERS; at++) {
        label.value_slot = (uint16_t)(FIRST_SLOT + at);
        set_name(&label, at);
        ask(rs, label, "", &place);
    }
    ask(rs, subscribe, "disk[0-9]+", &place);
    printf("rs: %d drivers run, the subscription is at place %d\n", DRIVERS, (int)place);
}

/* RS asks how far each driver is. The places of these calls are after every driver's. */
static void report(struct ds_seat *rs, const struct driver *drivers) {
    struct ds_request retrieve = {.command = DS_RETRIEVE, .kinds = DS_U32};
    uint64_t place = 0, last = 0;
    for (unsigned at = 0; at < DRIVERS; at++) {
        set_name(&retrieve, at);
        printf("disk%u: %u changes\n", at, (unsigned)ask(rs, retrieve, "", &place).value);
        last = drivers[at].place > last ? drivers[at].place : last;
    }
    printf("client: every driver is done%s\n", place > last ? ", and rs asked after them" : "");
}

int main(int count, char **arguments) {
    struct ds_desk desk = DS_CLOSED;
    struct ds_seat rs = DS_CLOSED, client = DS_CLOSED;
    struct driver drivers[DRIVERS] = {{.number = 0}};
    pthread_t ids[DRIVERS + 1];
    changes = count > 1 ? strtoul(arguments[1], NULL, 10) : changes;
    if (changes == 0 || ds_desk_open(&desk, 1, 0, JOURNAL, DRIVERS + 2) != 0 || ds_seat_open(&desk, &rs) != 0
        || ds_seat_open(&desk, &client) != 0) {
        give_up("no change, or out of memory");
    }
    begin(&rs);
    for (unsigned at = 0; at < DRIVERS; at++) {
        drivers[at].number = at;
        if (ds_seat_open(&desk, &drivers[at].seat) != 0 || pthread_create(&ids[at], NULL, drive, &drivers[at]) != 0) {
            give_up("no seat, or no thread");
        }
    }
    if (pthread_create(&ids[DRIVERS], NULL, watch, &client) != 0) {
        give_up("no thread");
    }
    for (unsigned at = 0; at <= DRIVERS; at++) {
        pthread_join(ids[at], NULL);
    }
    report(&rs, drivers);
    for (unsigned at = 0; at < DRIVERS; at++) {
        ds_seat_close(&drivers[at].seat);
    }
    if (ds_seat_close(&rs) != 0 || ds_seat_close(&client) != 0 || ds_desk_close(&desk) != 0) {
        give_up("a seat is open");
    }
    return 0;
}
