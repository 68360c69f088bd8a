/* Reads the members of structs by ds.h, beside the text of the same command as a line: the library's own account of them. */
#include "ds.h"
#include <stdio.h>
#include <stdlib.h>
#include <string.h>

static struct ds_handle by_lines = DS_CLOSED, by_structs = DS_CLOSED;
static int differ;

enum { ROOM = 2 * DS_MAX_PIECE };

/* Returns the last line of the text that answers a line. */
static const char *line_of(const char *line) {
    static char text[ROOM];
    struct ds_answer answer;
    struct ds_given given;
    if (ds_call_line(&by_lines, line, strlen(line), &answer) != 0 || ds_text(&by_lines, 0, text, sizeof text - 1, &given) != 0) exit(1);
    text[given.length - 1] = 0; /* in place of the newline */
    const char *last = strrchr(text, '\n');
    return last == NULL ? text : last + 1;
}

/* Writes the same of an answer, by its members. */
static void members_of(const struct ds_answer *it, char *said, size_t room) {
    unsigned long long pieces = it->pieces, count = it->count, before = it->before, after = it->after;
    static const unsigned char none[sizeof it->owed];
    if (memcmp(it->owed, none, sizeof none) != 0) { /* a last line of its own */
        snprintf(said, room, "owed ");
        for (size_t at = sizeof it->owed; at-- > 0;) snprintf(said + strlen(said), 3, "%02x", it->owed[at]);
        return;
    }
    switch (it->word) {
    case DS_CHANGED: snprintf(said, room, "taken"); return;
    case DS_FOUND:
        if (it->kind == DS_LABEL) snprintf(said, room, "found %u/%u", it->value, it->value_slot);
        if (it->kind == DS_U32) snprintf(said, room, "found %u", it->value);
        return;
    case DS_SUBSCRIBED: snprintf(said, room, "subscribed %llu", after); return;
    case DS_CHECKED: snprintf(said, room, "checked %llu %llu %llu", pieces, before, after); return;
    case DS_JOURNALED: snprintf(said, room, "since %llu %llu %llu", pieces, before, after); return;
    case DS_PAGED: snprintf(said, room, "page %llu %s %llu %llu", pieces, it->last == 1 ? "last" : "more", before, after); return;
    case DS_SWEPT: snprintf(said, room, "swept %llu", count); return;
    case DS_STOPPED:
    case DS_REFUSED:
        if (it->refusal == DS_CLASH) snprintf(said, room, "refused clash %u.%u", it->epoch, it->seq);
        else snprintf(said, room, "refused %s", ds_refusal_text(it->refusal));
        return;
    default: return;
    }
}

/* Carries out a command as a line and as a request, and prints the line's text, and that of the members if it is another. */
static void both(const char *line, struct ds_request request, const char *name, const char *text) {
    char other[64] = "";
    const char *one = line_of(line);
    struct ds_answer answer;
    if (name != NULL) ds_set_name(&request, name);
    if (ds_ask(&by_structs, &request, text, &answer) != 0) exit(1);
    members_of(&answer, other, sizeof other);
    int differs = strcmp(one, other) != 0;
    differ += differs;
    printf("%s: %s%s%s\n", line, one, differs ? ", but " : "", differs ? other : "");
}

static void publish(const char *line, uint8_t kind, uint32_t seq, const char *name, uint32_t value, uint16_t value_slot) {
    int is_label = kind == DS_LABEL;
    both(line, (struct ds_request){.command = DS_PUBLISH, .generation = is_label ? 0 : 3, .slot = is_label ? 2 : 17, .kinds = kind,
        .epoch = 3, .seq = seq, .value = value, .value_slot = value_slot}, name, "");
}

int main(void) {
    if (ds_open(&by_lines, 7, 2, 16) != 0 || ds_open(&by_structs, 7, 2, 16) != 0) return 1;
    publish("publish 0/2 new eth0 label 3.0 = 3/17", DS_LABEL, 0, "eth0", 3, 17);
    publish("publish 3/17 new mtu u32 3.1 = 1500", DS_U32, 1, "mtu", 1500, 0);
    both("retrieve eth0 label", (struct ds_request){.command = DS_RETRIEVE, .kinds = DS_LABEL}, "eth0", "");
    both("retrieve mtu u32", (struct ds_request){.command = DS_RETRIEVE, .kinds = DS_U32}, "mtu", "");
    both("subscribe 5 \".*\" 15 first new", (struct ds_request){.command = DS_SUBSCRIBE, .sub = 5, .kinds = 15, .initial = 1}, NULL, ".*");
    both("check 5 1", (struct ds_request){.command = DS_CHECK, .sub = 5, .max = 1}, NULL, "");
    both("check 5 8", (struct ds_request){.command = DS_CHECK, .sub = 5, .max = 8}, NULL, "");
    both("since * 7 3 8", (struct ds_request){.command = DS_SINCE, .incarnation = 7, .position = 3, .max = 8}, NULL, "");
    both("since * 3 7 8", (struct ds_request){.command = DS_SINCE, .incarnation = 3, .position = 7, .max = 8}, NULL, "");
    both("page * - 1", (struct ds_request){.command = DS_PAGE, .max = 1}, NULL, "");
    both("page * eth0 label 8", (struct ds_request){.command = DS_PAGE, .max = 8, .behind = DS_LABEL}, "eth0", "");
    both("offer mtu u32 eth0 3.1 = 9000", (struct ds_request){.command = DS_MERGE}, NULL, "mtu u32 eth0 3.1 = 9000\n");
    publish("publish 3/17 over mtu u32 3.1 = 9000", DS_U32, 1, "mtu", 9000, 0);
    both("sweep 0/2 eth0 9", (struct ds_request){.command = DS_SWEEP, .slot = 2, .value = 9}, "eth0", "");
    printf("%d differ\n", differ);
    return ds_close(&by_lines) != 0 || ds_close(&by_structs) != 0;
}
