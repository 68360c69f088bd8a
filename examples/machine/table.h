/* A server's driver table and the map that it follows: where each driver is, and which requests are with it. Moves that answer are kept in
 * order until they are carried out. */
#ifndef MACHINE_TABLE_H
#define MACHINE_TABLE_H

#include "ds.h"
#include <stdbool.h>

/* Opens the table of a file server or a network server, and a map of the labels that a pattern matches. */
bool table_open(enum ds_table_server server, const char *labels);
bool table_assign(uint8_t unit, enum ds_rs_class service_class, const char *label);
/* Takes lines of items. Returns false if they can't be taken, or memory runs out. */
bool table_learn(const char *lines, size_t length);
bool table_submit(uint64_t id, uint8_t unit);
/* Returns false if the request isn't with this instance. */
bool table_reply(uint32_t generation, uint16_t slot, uint64_t id);
/* Takes the next move. Returns false if there is none. */
bool table_next(struct ds_move *move);
/* Where the map has a label. Returns false if it has none: RS knows that the driver is gone. */
bool table_find(const char *label, uint32_t *generation, uint16_t *slot);

#endif
