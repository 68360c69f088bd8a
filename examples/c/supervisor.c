/* A supervisor in small: RS decides, this program carries out. Processes are lines of output here, and time is a number.
 *
 *     cc -Ic -o supervisor examples/c/supervisor.c crates/ds_c/out/libds_c.a LIBRARY/liblibc_c.a
 *
 * docs/guide/c.md builds the programs of this folder. */
#include "ds.h"
#include <inttypes.h>
#include <stdio.h>
#include <string.h>

static const char settings[] =
    "format = 2\n"
    "[[service]]\n"
    "label = \"disk\"\n"
    "class = \"block\"\n"
    "unit = 3\n"
    "period = 5 # ticks from one ping to the next\n"
    "limit = 2  # failures in a row that are answered by a start\n";

static struct ds_handle store = DS_CLOSED;

/* Carries out the actions of an answer, in order. Returns how many there were. */
static uint64_t carry_out(const struct ds_answer *answer) {
    struct ds_rs_action action;
    for (size_t at = 0; ds_rs_action(&store, at, &action) == 0; at++) {
        switch (action.kind) {
        case DS_RS_KILL: printf("  kill %u/%u\n", action.generation, action.slot); break;
        case DS_RS_START: printf("  start %.*s as %u/%u\n", action.label_length, action.label, action.generation, action.slot); break;
        case DS_RS_PING: printf("  ping %u/%u\n", action.generation, action.slot); break;
        case DS_RS_GIVEUP: printf("  %.*s is given up\n", action.label_length, action.label); break;
        default: break; /* the store has taken an offer or a sweep */
        }
    }
    return answer->count;
}

/* Reports an event, and carries out what follows from it. Returns how many actions there were. */
static uint64_t report(const char *what, struct ds_rs_event event) {
    struct ds_answer answer;
    if (ds_rs_event(&store, &event, &answer) != 0) {
        return 0;
    }
    if (answer.word != DS_ACTED) {
        printf("%s: refused %s\n", what, ds_refusal_text(answer.refusal));
        return 0;
    }
    if (answer.count > 0) {
        printf("tick %" PRIu64 ", %s\n", event.tick, what);
    }
    return carry_out(&answer);
}

/* Sleeps until a tick has actions, and reports that tick until it has none. */
static uint64_t sleep_until_due(void) {
    uint64_t tick;
    if (ds_rs_due(&store, &tick) != 0 || tick == UINT64_MAX) {
        return 0;
    }
    while (report("time passed", (struct ds_rs_event){.kind = DS_RS_TICK, .tick = tick}) > 0) {
    }
    return tick;
}

/* Prints where clients find the driver: its label in the store. */
static void find(void) {
    struct ds_request request = {.command = DS_RETRIEVE, .kinds = DS_LABEL, .name_length = 4, .name = "disk"};
    struct ds_answer answer;
    if (ds_call(&store, &request, NULL, 0, &answer) != 0) {
        return;
    }
    if (answer.word == DS_FOUND) {
        printf("clients find it at %u/%u\n", answer.value, answer.value_slot);
    } else {
        printf("clients find it nowhere\n");
    }
}

int main(void) {
    struct ds_settings_fault fault;
    uint32_t refusal = ds_open(&store, 1, 0, 256);
    if (refusal == 0) {
        refusal = ds_rs_open(&store, settings, strlen(settings), 1, 16, &fault);
    }
    if (refusal != 0) {
        fprintf(stderr, "refused %s\n", ds_refusal_text(refusal));
        return 1;
    }
    report("an administrator brings it up", (struct ds_rs_event){.kind = DS_RS_UP, .label_length = 4, .label = "disk", .tick = 1});
    find();
    report("it exits", (struct ds_rs_event){.kind = DS_RS_DEATH, .generation = 1, .slot = 16, .cause = DS_RS_EXIT, .tick = 2});
    find();
    sleep_until_due();
    find();
    sleep_until_due();                  /* a ping */
    sleep_until_due();                  /* it isn't answered in time */
    uint64_t tick = sleep_until_due();
    report("a trap", (struct ds_rs_event){.kind = DS_RS_DEATH, .generation = 3, .slot = 16, .cause = DS_RS_EXCEPTION, .tick = tick + 9});
    find();
    return ds_close(&store) != 0;
}
