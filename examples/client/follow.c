/* follow SOCKET: prints where the service `count` is, and what it publishes, while it and its dsrs are killed. ^C ends it.
 *
 * cc -I c -I daemon/ask -o /tmp/follow examples/client/follow.c daemon/ask/client.c */
#include "client.h"
#include <stdio.h>

static void print(const struct ds_item *item) {
    const struct ds_value *value = &item->value;
    if (item->kind == DS_ITEM_ANEW) printf("all that there is:\n");
    else if (item->kind == DS_ITEM_FLOOR) printf("%s's entries up to %u are gone\n", item->owner, item->epoch);
    else if (item->kind == DS_ITEM_GONE) printf("%s is gone\n", item->name);
    else if (value->kind == DS_LABEL) printf("%s is at %u/%u\n", item->name, value->endpoint.generation, value->endpoint.slot);
    else printf("%s = %u\n", item->name, value->number);
    fflush(stdout);
}

int main(int count, char **words) {
    struct ds_client *client = NULL;
    struct ds_watch *watch = NULL;
    struct ds_item item;
    uint32_t fault = count == 2 ? ds_client_open(&client, words[1], 5000) : DS_CLIENT_BADCALL;
    if (!fault) fault = ds_watch_open(&watch, client, "count.*", DS_LABEL | DS_U32, NULL);
    while (!fault && !(fault = ds_watch_next(watch, -1, &item))) print(&item);
    fprintf(stderr, "follow: %s\n", client ? ds_client_word(client) : "nobody serves the socket");
    ds_watch_close(watch);
    ds_client_close(client);
    return 1;
}
