/* count: the service `count` in C. It does what count/run does, in whose place it may be copied.
 *
 * cc -I c -I daemon/ask -o /tmp/client/count/run examples/client/count.c daemon/ask/client.c */
#include "client.h"
#include <stdio.h>

int main(void) {
    struct ds_client *me = NULL;
    uint32_t fault = ds_instance_open(&me, 5000), seconds = 0;
    if (!fault) fault = ds_instance_notify("READY=1");
    while (!fault) {
        struct ds_value value = ds_value_u32(seconds++);
        fault = ds_client_publish(me, "count.seconds", &value);
        if (!fault) fault = ds_instance_wait(me, 1000);
    }
    fprintf(stderr, "count: %s\n", me ? ds_client_word(me) : "dsrs didn't start this process");
    ds_client_close(me);
    return 1;
}
