/* fileserver SUMS LABEL [LABEL]: a file server of one disk, or of two that hold the same. It finds its drivers by their labels, sends
 * requests that are pending to the new instance of a driver that died, and believes no answer that it can't check. The probe's label is
 * `probe`, and the console's `console`. */
#include "clients.h"
#include "labels.h"
#include "mirror.h"
#include "table.h"
#include <stdio.h>
#include <stdlib.h>

enum { FIRST_UNIT = 3, TURN = 50 /* milliseconds that nothing may happen */, LABELS = 200 };

static struct driver driver[DRIVERS] = {{.label = "probe"}, {.label = "console"}};
static unsigned drivers = 2;

static bool assign(void) {
    for (unsigned i = 0; i < drivers; i++) {
        driver[i].unit = (uint8_t)(FIRST_UNIT + i);
        if (!table_assign(driver[i].unit, i == 1 ? DS_RS_CHARACTER : DS_RS_BLOCK, driver[i].label)) return false;
    }
    return true;
}

static void turn(void) {
    struct pollfd polled[1 + DRIVERS + CLIENTS + 1] = {{.fd = labels_file(), .events = POLLIN}};
    struct pollfd *of_drivers = polled + 1, *of_clients = of_drivers + drivers;
    drivers_poll(of_drivers);
    clients_poll(of_clients);
    poll(polled, 1 + drivers + CLIENTS + 1, TURN);
    drivers_turn(of_drivers);
    if (polled[0].revents) labels_hear();
    drivers_look();
    drivers_move();
    clients_turn(of_clients);
    drivers_write();
    clients_write();
}

int main(int count, char **words) {
    static const struct serving serving = {.done = mirror_done};
    static const struct answering answering = {mirror_has_room, mirror_take, mirror_answer, mirror_sent, mirror_drop};
    char labels[LABELS];
    for (int i = 2; i < count && drivers < DRIVERS; i++) driver[drivers++].label = words[i];
    snprintf(labels, sizeof labels, "probe|console|%s|%s", driver[2].label ? driver[2].label : "", driver[drivers - 1].label);
    drivers_open(&serving, driver, drivers);
    if (count < 3 || !mirror_open(words[1], driver, drivers) || !table_open(DS_TABLE_FILES, labels) || !assign()) return 1;
    clients_open(&answering);
    labels_open(labels);
    for (;;) turn();
}
