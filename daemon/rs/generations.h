/* The next generation, kept in a file beyond the end of dsrs, so no run starts a generation that an earlier one used. The keepers of the
 * library say which number is written, before the first start of a block. */
#ifndef DSRS_GENERATIONS_H
#define DSRS_GENERATIONS_H

#include <stdbool.h>
#include <stdint.h>

struct generations { const char *path; int file; uint32_t kept; /* in the file */ };

/* Opens or makes the file, and returns the next generation. Returns 0, with errno, if the file can't be read: EINVAL if the text isn't a
 * generation, EBUSY if another dsrs has the file. */
uint32_t generations_open(struct generations *generations, const char *path);
/* Writes the generation from which the next run continues. Returns false, with errno, if the write fails. A file that somebody removed
 * is made anew. */
bool generations_write(struct generations *generations, uint64_t next);
/* Writes which generation comes next, without the rest of the block, and closes the file. */
void generations_close(struct generations *generations, uint32_t next);

#endif
