/* Answers of a redis server, read strictly: a text that isn't exactly a number, or an id, counts as none. Used within
 * the library. */
#ifndef DS_FLEET_ANSWERS_H
#define DS_FLEET_ANSWERS_H

#include "ds_fleet.h"
#include <hiredis/hiredis.h>

/* The id of an entry of a stream; 0-0 is the id of no entry. */
struct entry_id { unsigned long long first, second; };

#define NO_ENTRY ((struct entry_id){0, 0})

enum { ENTRY_ID, ENTRY_FIELDS, ENTRY_PARTS }; /* an entry, as a server sends it */

bool is_above(struct entry_id a, struct entry_id b);
bool is_same_entry(struct entry_id a, struct entry_id b);
/* Reads `FIRST-SECOND`, and leaves the id unchanged where the text is something else. */
bool read_entry_id(const char *text, struct entry_id *id);
void write_entry_id(char text[DS_FLEET_ID], struct entry_id id);

bool is_text(const redisReply *answer);
bool is_error(const redisReply *answer);
/* Whether the answer is a list of `count` elements. */
bool is_list_of(const redisReply *answer, size_t count);
/* Whether the answer is an error that begins with this word. */
bool is_error_of(const redisReply *answer, const char *word);
/* Whether the answer is the error of a stream that doesn't exist. */
bool is_no_stream(const redisReply *answer);

/* The first error among these answers, or NULL. */
const redisReply *error_of(struct redisReply **answers, size_t count);

/* The id that an answer is, or 0-0. */
struct entry_id id_of(const redisReply *answer);
/* Reads a count from 0 to 2^53, which an integer or a text holds. False: the answer is something else, and the count is
 * 0. */
bool read_count(const redisReply *answer, long long *count);
long long count_of(const redisReply *answer);
/* The value after a name in a list of names and values, or NULL. */
redisReply *field_of(const redisReply *fields, const char *name);
/* Whether the text of an INFO has a line that begins so. */
bool info_says(const redisReply *info, const char *line);
/* Whether a server, by its INFO, deletes keys of any kind when memory is short. */
bool info_may_evict(const redisReply *info);
/* Whether the keys of a stream may be on several nodes of a server's cluster: a part in braces in the stream's name decides on
 * one. */
bool info_splits(const redisReply *info, const char *stream);
/* Copies the hexadecimal digits after a name, as `run_id:`, of the text of an INFO; the copy is empty where there are
 * none. */
void copy_hex_of(const redisReply *info, const char *name, char copy[DS_FLEET_ID]);

#endif
