/* A server's driver table. See table.h. */
#include "table.h"
#include <string.h>

enum { MOVES = 8192 /* that wait to be carried out, a power of two */, AT_ONCE = 64 };

static struct ds_map drivers = DS_CLOSED;
static struct ds_table table = DS_CLOSED;
static struct ds_move move[MOVES];
static unsigned taken, made; /* moves, since the beginning */

bool table_open(enum ds_table_server server, const char *labels) {
    return !ds_map_new(&drivers, DS_LABEL, labels, strlen(labels)) && !ds_table_new(&table, server);
}

bool table_assign(uint8_t unit, enum ds_rs_class service_class, const char *label) {
    struct ds_answer answer;
    return !ds_table_assign(&table, unit, service_class, label, strlen(label), &answer) && answer.word == DS_MOVED;
}

/* Fetches the moves of an answer, since the next call replaces them. */
static bool keep(const struct ds_answer *answer) {
    struct ds_move some[AT_ONCE];
    size_t given = 0;
    if (answer->word != DS_MOVED || answer->count > MOVES - (made - taken)) return false;
    for (size_t first = 0; first < answer->count; first += given) {
        if (ds_table_moves(&table, first, some, AT_ONCE, &given) || !given) return false;
        for (size_t i = 0; i < given; i++) move[made++ % MOVES] = some[i];
    }
    return !answer->refusal;
}

bool table_learn(const char *lines, size_t length) {
    struct ds_answer answer;
    if (ds_map_take(&drivers, lines, length, &answer) || answer.word != DS_MERGED) return false;
    return !ds_table_follow(&table, &drivers, &answer) && keep(&answer);
}

bool table_submit(uint64_t id, uint8_t unit) {
    struct ds_answer answer;
    return !ds_table_submit(&table, &drivers, id, unit, &answer) && keep(&answer);
}

bool table_reply(uint32_t generation, uint16_t slot, uint64_t id) {
    struct ds_answer answer;
    return !ds_table_reply(&table, generation, slot, id, &answer) && keep(&answer);
}

bool table_next(struct ds_move *next) {
    if (taken == made) return false;
    *next = move[taken++ % MOVES];
    return true;
}

bool table_find(const char *label, uint32_t *generation, uint16_t *slot) {
    struct ds_answer answer;
    if (ds_map_label(&drivers, label, strlen(label), &answer) || answer.word != DS_FOUND) return false;
    *generation = answer.value;
    *slot = answer.value_slot;
    return true;
}
