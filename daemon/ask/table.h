/* The services of a dsrs as a table. Used by answers.c alone. */
#ifndef DSASK_TABLE_H
#define DSASK_TABLE_H

#include "text.h"

/* Puts the lines that answer `status` as a table with headings. Returns false where memory runs out. */
bool table_put(const char *answer, size_t length, struct text *to);

#endif
