/* ethernet WIRE: a network driver. It carries datagrams between a wire and the network server, once its port is set up. */
#include "confine.h"
#include "datagram.h"
#include "driver.h"

static int wire;
static bool is_set_up;

static void serve(struct frame *frame) {
    struct head *head = &frame->head;
    bool done = head->verb == SETUP && !head->length;
    if (done) is_set_up = true;
    if (head->verb == SEND && is_set_up) done = wire_send(wire, "far", frame->data, head->length);
    head->verb = done ? DONE : FAILED;
    head->length = 0;
}

static void hear(void) {
    static struct frame frame;
    ssize_t got = recv(wire, frame.data, sizeof frame.data, MSG_DONTWAIT);
    if (got <= 0 || !is_set_up) return;
    frame.head = (struct head){.verb = RECEIVED, .length = (uint32_t)got};
    driver_tell(&frame);
}

int main(int count, char **words) {
    driver_must(count == 2);
    wire = wire_open(words[1], "near");
    driver_must(wire >= 0);
    confine(0);
    driver_run(&(struct driving){.serve = serve, .device = wire, .hear = hear});
}
