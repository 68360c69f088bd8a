/* A file server follows its disk drivers by a map, and sends them requests by a driver table. Messages may come late, twice
 * or from elsewhere, but the file server never sends to an older driver than it knew.
 *
 * It takes all that is held once, and then what came after its cursor. A request that no driver answered yet waits, or is
 * sent again once the driver runs again. A message or a reply from before the driver's death changes nothing when it
 * arrives late.
 *
 *     fileserver [DISKS]       the number of disks, at most 1000; by default 1. The first 256 have a unit */
#include "ds.h"
#include <stdio.h>
#include <stdlib.h>
#include <string.h>

enum {
    RS = 2,            /* the slot of RS, whose generation is 0 */
    FIRST_SLOT = 16,   /* of the disks' drivers */
    MOST_DISKS = 1000, /* slots end at 1023 */
    JOURNAL = 512,     /* items that the store's journal keeps */
    MOST = 256,        /* items of an answer to a since */
    ROOM = 4096,       /* bytes, and at least DS_MAX_PIECE */
    MOST_UNITS = 256,  /* of the table */
    ROUNDS = 2,        /* of requests, one for each unit */
    SOME = 8           /* moves that are fetched at a time */
};

static struct ds_handle store = DS_CLOSED;
static struct ds_map drivers = DS_CLOSED;
static struct ds_table table = DS_CLOSED;
static struct ds_move sent[ROUNDS * MOST_UNITS + 1]; /* where each request is, by its id */
static struct ds_request next = {.command = DS_SNAPSHOT}; /* what the file server asks for when it looks again */
static unsigned long disks = 1, units = 1;

static void give_up(const char *why) {
    fprintf(stderr, "fileserver: %s\n", why);
    exit(1);
}

/* The names are disk, disk1, disk2 .. */
static void set_name(struct ds_request *to, unsigned long disk) {
    if (disk == 0) {
        strcpy(to->name, "disk");
    } else {
        snprintf(to->name, sizeof to->name, "disk%lu", disk);
    }
    to->name_length = (uint8_t)strlen(to->name);
}

static struct ds_answer ask(const struct ds_request *request) {
    struct ds_answer answer;
    if (ds_call(&store, request, NULL, 0, &answer) != 0) {
        give_up("the store is closed");
    }
    return answer;
}

/* Sends a request of RS, which the store takes. */
static void tell(const struct ds_request *request) {
    struct ds_answer answer = ask(request);
    if (answer.refusal != 0) {
        give_up(ds_refusal_text(answer.refusal));
    }
}

/* RS says that each disk's driver runs in this generation, in a slot of its own. */
static void started(uint32_t generation) {
    for (unsigned long disk = 0; disk < disks; disk++) {
        struct ds_request request = {.command = DS_PUBLISH, .slot = RS, .kinds = DS_LABEL, .overwrite = 1};
        request.epoch = request.value = generation;
        request.value_slot = (uint16_t)(FIRST_SLOT + disk);
        set_name(&request, disk);
        tell(&request);
        printf("rs: %.*s runs at %u/%u\n", request.name_length, request.name, generation, request.value_slot);
    }
}

static void died(uint32_t generation) {
    struct ds_request request = {.command = DS_SWEEP, .slot = RS, .value = generation};
    set_name(&request, 0);
    tell(&request);
    printf("rs: disk of generation %u died\n", generation);
}

/* Lets the map take lines, and adds its counts to a sum. */
static void take(const char *lines, size_t length, struct ds_answer *sum) {
    struct ds_answer taken;
    if (ds_map_take(&drivers, lines, length, &taken) != 0 || taken.word != DS_MERGED) {
        give_up("the map doesn't take it all");
    }
    sum->count += taken.count;
    sum->taken += taken.taken;
    sum->stale += taken.stale;
}

static void print_sum(const char *what, const struct ds_answer *sum) {
    printf("fs: %s: %lu items, %lu taken, %lu stale\n", what, (unsigned long)sum->count, (unsigned long)sum->taken,
           (unsigned long)sum->stale);
}

/* Lets the map take the text of the last answer. One ds_items fetches the lines that fit into the room, so it is called
 * until the map has all of them. */
static void take_answer(const char *what, const struct ds_answer *answer) {
    char room[ROOM];
    struct ds_answer sum = {0};
    struct ds_given given;
    for (size_t first = 0; first < answer->pieces; first += given.count) {
        if (ds_items(&store, first, room, sizeof room, &given) != 0 || given.count == 0) {
            give_up("out of memory");
        }
        take(room, given.length, &sum);
    }
    print_sum(what, &sum);
}

/* Asks for what comes next, takes it, and puts the cursor after it. Returns whether there is more. */
static int take_next(void) {
    struct ds_answer answer = ask(&next);
    int is_all = next.command == DS_SNAPSHOT;
    if (answer.word == DS_REFUSED) {
        if (is_all) {
            give_up(ds_refusal_text(answer.refusal));
        }
        next = (struct ds_request){.command = DS_SNAPSHOT}; /* DS_BEHIND: the journal has forgotten the cursor */
        return 1;
    }
    take_answer(is_all ? "all that is held" : "what came since", &answer);
    next = (struct ds_request){.command = DS_SINCE, .incarnation = answer.before, .position = answer.after, .max = MOST};
    return !is_all && answer.pieces == MOST;
}

static void carry_out_move(const struct ds_move *move) {
    unsigned long id = (unsigned long)move->id;
    switch (move->kind) {
    case DS_MOVE_SEND:
        printf("fs: request %lu goes to %u/%u\n", id, move->generation, move->slot);
        sent[id] = *move;
        break;
    case DS_MOVE_HELD: printf("fs: request %lu waits for a driver\n", id); break;
    default: give_up("a disk has no such move");
    }
}

/* Carries out the moves of an answer of the table, in order. */
static void carry_out(const struct ds_answer *answer) {
    struct ds_move moves[SOME];
    size_t given;
    for (size_t first = 0; first < answer->count; first += given) {
        if (ds_table_moves(&table, first, moves, SOME, &given) != 0) {
            give_up("the table is closed");
        }
        for (size_t i = 0; i < given; i++) {
            carry_out_move(&moves[i]);
        }
    }
    if (answer->refusal != 0) {
        give_up(ds_refusal_text(answer->refusal));
    }
}

/* Takes all that is new, and lets the table follow: what waits is sent, and what a dead driver had is sent again. */
static void catch_up(void) {
    struct ds_answer answer;
    while (take_next()) {
    }
    if (ds_table_follow(&table, &drivers, &answer) != 0) {
        give_up("the table is closed");
    }
    carry_out(&answer);
}

static void assign_units(void) {
    for (unsigned long unit = 0; unit < units; unit++) {
        struct ds_request named = {0};
        struct ds_answer answer;
        set_name(&named, unit);
        if (ds_table_assign(&table, (uint8_t)unit, DS_RS_BLOCK, named.name, named.name_length, &answer) != 0 ||
            answer.word != DS_MOVED) {
            give_up("a unit isn't assigned");
        }
    }
}

/* Submits a request to each unit. Ids rise, round by round. */
static void submit(unsigned long round) {
    for (unsigned long unit = 0; unit < units; unit++) {
        struct ds_answer answer;
        if (ds_table_submit(&table, &drivers, round * units + unit + 1, (uint8_t)unit, &answer) != 0) {
            give_up("the table is closed");
        }
        carry_out(&answer);
    }
}

/* Each driver replies to the request of a round that was sent to it. */
static void reply(unsigned long round) {
    for (unsigned long id = round * units + 1; id <= (round + 1) * units; id++) {
        struct ds_answer answer;
        if (ds_table_reply(&table, sent[id].generation, sent[id].slot, id, &answer) != 0) {
            give_up("the table is closed");
        }
        if (answer.word != DS_MOVED) {
            give_up(ds_refusal_text(answer.refusal));
        }
        printf("fs: request %lu is done\n", id); /* by the only move, DS_MOVE_DONE */
    }
}

/* The driver that died replied before its death. */
static void reply_late(uint32_t generation) {
    struct ds_answer answer;
    if (ds_table_reply(&table, generation, FIRST_SLOT, units + 1, &answer) != 0) {
        give_up("the table is closed");
    }
    printf("fs: a reply from %u/%d is refused: %s\n", generation, FIRST_SLOT, ds_refusal_text(answer.refusal));
}

/* Takes what another server passes on late. */
static void take_late(void) {
    const char *line = "disk label rs 3.0 = 3/16\n";
    struct ds_answer sum = {0};
    take(line, strlen(line), &sum);
    print_sum("the first message, late", &sum);
}

int main(int count, char **arguments) {
    if (count > 1) {
        disks = strtoul(arguments[1], NULL, 10);
    }
    if (disks > MOST_DISKS) {
        give_up("too many disks");
    }
    units = disks < MOST_UNITS ? disks : MOST_UNITS;
    if (ds_open(&store, 1, 0, JOURNAL) != 0 || ds_map_new(&drivers, DS_LABEL, "disk.*", 6) != 0 ||
        ds_table_new(&table, DS_TABLE_FILES) != 0) {
        give_up("out of memory");
    }
    assign_units();
    submit(0);

    started(3);
    catch_up();
    reply(0);
    submit(1);

    died(3);
    started(4);
    catch_up();

    take_late();
    reply_late(3);
    reply(1);
    return ds_table_close(&table) != 0 || ds_map_close(&drivers) != 0 || ds_close(&store) != 0;
}
