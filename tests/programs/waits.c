/* Makes MINIX's calls while memory runs out at each allocation, alone or with all after it. A caller that checks gets every entry,
 * once and in order, though a call between may be refused. Link with -Wl,--wrap=malloc,--wrap=realloc. */
#include "minix_ds.h"
#include "growths.h"
#include <errno.h>
#include <stdio.h>
#include <stdlib.h>
#include <string.h>

enum { ENTRIES = 6, LISTED = 400 };
static struct ds_server server = DS_SERVER_CLOSED;
static struct ds_caller rs, inet, tty;
static long waited;

/* Checks until there is nothing more, and lists what it gets. If memory runs out, another caller calls before and after it is back. */
static void all(struct ds_caller *caller, struct ds_caller *other, char *listed) {
    for (;;) {
        char key[DS_MAX_KEYLEN], line[DS_MAX_KEYLEN + 40];
        uint32_t number;
        ds_endpoint_t owner = 0;
        int type = 0, error = ds_check(caller, key, &type, &owner);
        if (error == -ENOMEM) {
            waited += server.waits != NULL;
            ds_retrieve_u32(other, "load", &number);
            left = -1;
            ds_retrieve_u32(other, "load", &number);
            continue;
        }
        snprintf(line, sizeof line, "%s %d %u;", error ? "end" : key, type, (unsigned)owner);
        strncat(listed, line, LISTED - strlen(listed) - 1);
        if (error) return;
    }
}

/* Runs from the opening on, and lists what both callers get. Returns whether the close is refused. */
static int run(long n, char *given) {
    char name[8];
    memset(&rs, 0, sizeof rs), memset(&inet, 0, sizeof inet), memset(&tty, 0, sizeof tty);
    rs.server = inet.server = tty.server = &server;
    rs.endpoint = 2, inet.endpoint = 5, inet.sub = 40, tty.endpoint = 6, tty.sub = 41;
    given[0] = '\0';
    if (ds_open(&server.store, 1, 0, 64)) exit(1);
    if (ds_subscribe(&inet, "eth.*", 0) || ds_subscribe(&tty, ".*", DSF_TYPE_LABEL)) exit(1);
    for (int i = 0; i < ENTRIES; i++) {
        snprintf(name, sizeof name, "eth%d", i);
        if (ds_publish_label(&rs, name, DS_ENDPOINT(1, 16 + i), 0)) exit(1);
    }
    left = n;
    all(&inet, &tty, given);
    all(&tty, &inet, given);
    left = -1;
    return ds_close(&server.store) != 0;
}

int main(void) {
    static char full[LISTED], given[LISTED];
    if (run(-1, full)) return 1;
    puts(full);
    long before = asked, bad = 0;
    if (run(-1, given) || strcmp(full, given)) return 1;
    before = asked - before;
    for (once = 0; once < 2; once++)
        for (long n = 0; n < before; n++) bad += run(n, given) || strcmp(full, given);
    printf("each refused: some waited %d; wrong %ld\n", waited > 0, bad);
    return bad != 0;
}
