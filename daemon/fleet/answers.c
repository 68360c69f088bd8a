/* Answers of a redis server. See answers.h. */
#include "answers.h"
#include "text.h"
#include <limits.h>
#include <stdio.h>
#include <string.h>

static const unsigned long long most_counted = 1ULL << 53; /* sums of a few of these don't overflow */

bool is_above(struct entry_id a, struct entry_id b) {
    return a.first > b.first || (a.first == b.first && a.second > b.second);
}

bool is_same_entry(struct entry_id a, struct entry_id b) { return a.first == b.first && a.second == b.second; }

bool read_entry_id(const char *text, struct entry_id *id) {
    struct entry_id read;
    size_t length = strlen(text), first = read_digits(text, length, ULLONG_MAX, &read.first);
    if (!first || text[first] != '-') return false;
    size_t second = read_digits(text + first + 1, length - first - 1, ULLONG_MAX, &read.second);
    if (!second || first + 1 + second != length) return false;
    *id = read;
    return true;
}

void write_entry_id(char text[DS_FLEET_ID], struct entry_id id) {
    snprintf(text, DS_FLEET_ID, "%llu-%llu", id.first, id.second);
}

bool is_text(const redisReply *answer) { return answer && answer->type == REDIS_REPLY_STRING; }

bool is_error(const redisReply *answer) { return answer && answer->type == REDIS_REPLY_ERROR; }

bool is_list_of(const redisReply *answer, size_t count) {
    return answer && answer->type == REDIS_REPLY_ARRAY && answer->elements == count;
}

bool is_error_of(const redisReply *answer, const char *word) {
    return is_error(answer) && !strncmp(answer->str, word, strlen(word));
}

bool is_no_stream(const redisReply *answer) { return is_error(answer) && strstr(answer->str, "no such key"); }

const redisReply *error_of(struct redisReply **answers, size_t count) {
    for (size_t i = 0; i < count; i++) {
        if (is_error(answers[i])) return answers[i];
    }
    return NULL;
}

struct entry_id id_of(const redisReply *answer) {
    struct entry_id id = NO_ENTRY;
    if (is_text(answer)) read_entry_id(answer->str, &id);
    return id;
}

bool read_count(const redisReply *answer, long long *count) {
    unsigned long long number = 0;
    size_t digits = is_text(answer) ? read_digits(answer->str, answer->len, most_counted, &number) : 0;
    bool is_integer = answer && answer->type == REDIS_REPLY_INTEGER && answer->integer >= 0;
    if (is_integer) number = (unsigned long long)answer->integer;
    bool is_count = is_integer ? number <= most_counted : digits && digits == answer->len;
    *count = is_count ? (long long)number : 0;
    return is_count;
}

long long count_of(const redisReply *answer) {
    long long count;
    read_count(answer, &count);
    return count;
}

redisReply *field_of(const redisReply *fields, const char *name) {
    if (!fields || fields->type != REDIS_REPLY_ARRAY) return NULL;
    for (size_t i = 0; i + 1 < fields->elements; i += 2) {
        if (is_text(fields->element[i]) && !strcmp(fields->element[i]->str, name)) return fields->element[i + 1];
    }
    return NULL;
}

bool info_says(const redisReply *info, const char *line) { return is_text(info) && strstr(info->str, line); }

bool info_may_evict(const redisReply *info) {
    return info_says(info, "maxmemory_policy:allkeys") && !info_says(info, "maxmemory:0\r");
}

bool info_splits(const redisReply *info, const char *stream) {
    const char *open = strchr(stream, '{'), *close = open ? strchr(open, '}') : NULL;
    return info_says(info, "cluster_enabled:1") && !(close && close > open + 1);
}

void copy_hex_of(const redisReply *info, const char *name, char copy[DS_FLEET_ID]) {
    const char *at = is_text(info) ? strstr(info->str, name) : NULL;
    size_t length = at ? strspn(at + strlen(name), "0123456789abcdef") : 0;
    if (length >= DS_FLEET_ID) length = DS_FLEET_ID - 1;
    if (length) memcpy(copy, at + strlen(name), length);
    copy[length] = '\0';
}
