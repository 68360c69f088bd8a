/* The settings of RS, read from a file. */
#ifndef DSRS_SETTINGS_H
#define DSRS_SETTINGS_H

#include "ds.h"
#include "events.h"
#include "text.h"
#include <stdbool.h>

/* These return false after an event that says why. */

/* Puts the text of a file. */
bool settings_read(const char *path, struct text *text, struct events *events);
/* Whether a line of the text is `service = []`: there are to be no services. */
bool settings_say_none(const struct text *text);
/* Opens a store in a closed handle, with RS for the settings in a text, which was read from the path. Returns false with the handle
 * closed. */
bool settings_open(struct ds_handle *store, const char *path, const struct text *text, uint32_t next, uint16_t slot,
                   struct events *events);

#endif
