/* MINIX 3's calls of the data store, over ds.h. See minix_ds.h. */
#include "minix_ds.h"
#include <errno.h>
#include <stdio.h>
#include <string.h>

struct ds_caller *ds_self;

static int error_of(uint32_t refusal) {
    switch (refusal) {
    case 0: return 0;
    case DS_NOCALLER: case DS_NOTALLOWED: case DS_NOTOWNER: return -EPERM;
    case DS_EXISTS: return -EEXIST;
    case DS_NOTFOUND: return -ESRCH;
    case DS_FULL: case DS_WORN: return -ENOSPC;
    case DS_NOROOM: return -ENOMEM;
    default: return -EINVAL; /* also for causes without an error in DS: an older version, a clash */
    }
}

/* Fetches the item that waits for memory, for the caller that saw it. */
static int fetch_waiting(struct ds_caller *caller) {
    struct ds_server *server = caller->server;
    struct ds_caller *waits = server->waits;
    struct ds_given given;
    if (!waits) return 0;
    if (ds_items(&server->store, 0, waits->line, DS_MAX_LINE, &given)) given.length = 0, given.stop = DS_WHOLE; /* closed meanwhile */
    if (given.stop == DS_WANTING) {
        caller->refusal = DS_NOROOM;
        return -ENOMEM;
    }
    waits->line[given.length] = '\0';
    server->waits = NULL;
    return 0;
}

/* Calls the store, notes which subscriptions are owed a notice, and returns the error. A call drops the last answer's text, so a
 * waiting item is fetched first. */
static int call_store(struct ds_caller *caller, const struct ds_request *request, const void *text, size_t length,
                      struct ds_answer *answer) {
    int error = fetch_waiting(caller);
    if (error) return error;
    caller->refusal = ds_call(&caller->server->store, request, text, length, answer);
    if (caller->refusal) return -EIO;
    if (answer->word == DS_NOREQUEST) return -EINVAL;
    for (size_t i = 0; i < sizeof answer->owed; i++) caller->owed[i] |= answer->owed[i];
    caller->refusal = answer->refusal;
    return error_of(answer->refusal);
}

/* The store isn't called, so there is no refusal. */
static int too_big(struct ds_caller *caller) {
    caller->refusal = 0;
    return -E2BIG;
}

/* Fills in a request for a key, in the name of the caller. */
static int request_for_key(struct ds_request *to, uint32_t command, struct ds_caller *caller, const char *name, uint8_t kind) {
    size_t length = strlen(name);
    if (length > sizeof to->name) return too_big(caller);
    memset(to, 0, sizeof *to);
    to->command = command, to->kinds = kind;
    to->generation = caller->endpoint / 1024, to->slot = (uint16_t)(caller->endpoint % 1024);
    to->name_length = (uint8_t)length;
    memcpy(to->name, name, length);
    return 0;
}

/* Sends a change with the caller's generation and next number. The number is used up if the change takes effect. */
static int send_change(struct ds_caller *caller, struct ds_request *request, const void *text, size_t length) {
    struct ds_answer answer;
    request->epoch = request->generation, request->seq = caller->seq + 1;
    request->text_length = length;
    int error = call_store(caller, request, text, length, &answer);
    if (!error && answer.word == DS_CHANGED) caller->seq++;
    return error;
}

int ds_publish_label(struct ds_caller *caller, const char *label, ds_endpoint_t endpoint, int flags) {
    struct ds_request request;
    struct ds_answer answer;
    int error = request_for_key(&request, DS_PUBLISH, caller, label, DS_LABEL);
    if (error) return error;
    request.epoch = request.value = endpoint / 1024, request.value_slot = (uint16_t)(endpoint % 1024);
    request.overwrite = (flags & DSF_OVERWRITE) != 0;
    return call_store(caller, &request, NULL, 0, &answer);
}

static int publish(struct ds_caller *caller, const char *name, uint8_t kind, uint32_t value, const void *text, size_t length, int flags) {
    struct ds_request request;
    int error = request_for_key(&request, DS_PUBLISH, caller, name, kind);
    if (error) return error;
    request.value = value, request.overwrite = (flags & DSF_OVERWRITE) != 0;
    return send_change(caller, &request, text, length);
}

int ds_publish_u32(struct ds_caller *caller, const char *name, uint32_t value, int flags) {
    return publish(caller, name, DS_U32, value, NULL, 0, flags);
}

int ds_publish_str(struct ds_caller *caller, const char *name, const char *value, int flags) {
    size_t length = strlen(value);
    return length > 256 ? too_big(caller) : publish(caller, name, DS_STR, 0, value, length, flags);
}

int ds_publish_mem(struct ds_caller *caller, const char *name, const void *value, size_t length, int flags) {
    return length > 1024 ? too_big(caller) : publish(caller, name, DS_MEM, 0, value, length, flags);
}

/* Retrieves an entry and the entry's text, of at most *length bytes. */
static int retrieve(struct ds_caller *caller, const char *name, uint8_t kind, struct ds_answer *answer, char *text, size_t *length) {
    struct ds_request request;
    struct ds_given given;
    int error = request_for_key(&request, DS_RETRIEVE, caller, name, kind);
    if (!error) error = call_store(caller, &request, NULL, 0, answer);
    if (error || answer->pieces == 0) return error;
    if (ds_items(&caller->server->store, 0, text, *length, &given)) return -EIO;
    if (given.count == 0) return given.stop == DS_WANTING ? -ENOMEM : -E2BIG;
    *length = given.length;
    return 0;
}

int ds_retrieve_label_name(struct ds_caller *caller, char *name, ds_endpoint_t endpoint) {
    struct ds_request request = {0};
    struct ds_answer answer;
    struct ds_given given;
    request.command = DS_NAMEOF, request.generation = endpoint / 1024, request.slot = (uint16_t)(endpoint % 1024);
    int error = call_store(caller, &request, NULL, 0, &answer);
    if (error) return error;
    if (ds_items(&caller->server->store, 0, name, DS_MAX_KEYLEN - 1, &given) || given.count == 0) return -EIO;
    name[given.length] = '\0';
    return 0;
}

int ds_retrieve_label_endpt(struct ds_caller *caller, const char *label, ds_endpoint_t *endpoint) {
    struct ds_answer answer;
    size_t none = 0;
    int error = retrieve(caller, label, DS_LABEL, &answer, NULL, &none);
    if (!error) *endpoint = DS_ENDPOINT(answer.value, answer.value_slot);
    return error;
}

int ds_retrieve_u32(struct ds_caller *caller, const char *name, uint32_t *value) {
    struct ds_answer answer;
    size_t none = 0;
    int error = retrieve(caller, name, DS_U32, &answer, NULL, &none);
    if (!error) *value = answer.value;
    return error;
}

int ds_retrieve_str(struct ds_caller *caller, const char *name, char *value, size_t length) {
    struct ds_answer answer;
    int error = retrieve(caller, name, DS_STR, &answer, value, &length);
    if (!error) value[length] = '\0';
    return error;
}

int ds_retrieve_mem(struct ds_caller *caller, const char *name, void *value, size_t *length) {
    struct ds_answer answer;
    return retrieve(caller, name, DS_MEM, &answer, value, length);
}

/* Deletes a label, in the label's own generation, with number 1; only RS may. */
int ds_delete_label(struct ds_caller *caller, const char *label) {
    struct ds_request request;
    struct ds_answer answer;
    ds_endpoint_t endpoint;
    int error = ds_retrieve_label_endpt(caller, label, &endpoint);
    if (!error) error = request_for_key(&request, DS_DELETE, caller, label, DS_LABEL);
    if (error) return error;
    request.epoch = endpoint / 1024, request.seq = 1;
    return call_store(caller, &request, NULL, 0, &answer);
}

static int delete_entry(struct ds_caller *caller, const char *name, uint8_t kind) {
    struct ds_request request;
    int error = request_for_key(&request, DS_DELETE, caller, name, kind);
    return error ? error : send_change(caller, &request, NULL, 0);
}

int ds_delete_u32(struct ds_caller *caller, const char *name) { return delete_entry(caller, name, DS_U32); }
int ds_delete_str(struct ds_caller *caller, const char *name) { return delete_entry(caller, name, DS_STR); }
int ds_delete_mem(struct ds_caller *caller, const char *name) { return delete_entry(caller, name, DS_MEM); }

int ds_subscribe(struct ds_caller *caller, const char *pattern, int flags) {
    struct ds_request request = {0};
    struct ds_answer answer;
    request.command = DS_SUBSCRIBE, request.sub = caller->sub;
    request.kinds = (uint8_t)(flags & DSF_MASK_TYPE ? flags & DSF_MASK_TYPE : DS_LABEL | DS_U32 | DS_STR | DS_MEM);
    request.initial = (flags & DSF_INITIAL) != 0, request.overwrite = (flags & DSF_OVERWRITE) != 0;
    request.text_length = strlen(pattern);
    return call_store(caller, &request, pattern, request.text_length, &answer);
}

/* An item: an entry, a deletion, or a floor, whose type is 0. */
struct item {
    char key[DS_MAX_KEYLEN];
    char owner[DS_MAX_KEYLEN];
    int type;
    int is_deletion;
};

static int type_of(const char *kind) {
    static const struct {
        const char *kind;
        int type;
    } types[] = {{"label", DS_LABEL}, {"u32", DS_U32}, {"str", DS_STR}, {"mem", DS_MEM}};
    for (size_t i = 0; i < sizeof types / sizeof *types; i++) {
        if (strcmp(kind, types[i].kind) == 0) {
            return types[i].type;
        }
    }
    return 0;
}

/* Reads the line of an item: NAME KIND OWNER VERSION = VALUE, NAME KIND OWNER VERSION - for a deletion, or ! OWNER GENERATION. */
static int read_item(const char *line, struct item *item) {
    char kind[8];
    char sign;
    memset(item, 0, sizeof *item);
    if (sscanf(line, "! %64s", item->key) == 1) {
        strcpy(item->owner, item->key);
        return 0;
    }
    if (sscanf(line, "%64s %7s %64s %*s %c", item->key, kind, item->owner, &sign) != 4) {
        return -EIO;
    }
    item->type = type_of(kind);
    item->is_deletion = sign == '-';
    return 0;
}

/* The mark of an entry that ds_check returned: an odd number if the entry was there, an even number if the entry was deleted. */
enum { MARK_IS_THERE = 1, MARK_IS_TAKEN = 2 };

/* Returns the even mark of an entry: a hash (FNV-1a) of its name and type. If two entries have one hash, as in at most one store in
 * 2^39, a deletion may be returned that should be passed over. */
static uint64_t mark_of(const struct item *item) {
    uint64_t hash = 0xcbf29ce484222325 ^ (uint64_t)item->type;
    for (const char *byte = item->key; *byte != '\0'; byte++) {
        hash = (hash ^ (unsigned char)*byte) * 0x100000001b3;
    }
    return (hash & ~(uint64_t)MARK_IS_THERE) | MARK_IS_TAKEN;
}

/* Returns the place of the mark, or the first free one; NULL if all are taken, as when others took the places of swept entries. */
static uint64_t *place_of(struct ds_caller *caller, uint64_t mark) {
    for (size_t i = 0; i < DS_MAX_KEYS; i++) {
        uint64_t *place = &caller->given[(mark / 4 + i) % DS_MAX_KEYS];
        if (*place == 0 || (*place & ~(uint64_t)MARK_IS_THERE) == mark) {
            return place;
        }
    }
    return NULL;
}

/* Marks the item as returned, and returns 1; or 0 for the deletion of an entry that the caller wasn't given. */
static int is_for(struct ds_caller *caller, const struct item *item) {
    uint64_t mark = mark_of(item);
    uint64_t *place = item->type == 0 ? NULL : place_of(caller, mark);
    if (place == NULL) {
        return 1;
    }
    if (!item->is_deletion) {
        *place = mark | MARK_IS_THERE;
        return 1;
    }
    if ((*place & MARK_IS_THERE) == 0) {
        return 0;
    }
    *place = mark;
    return 1;
}

/* Checks for the next item, and fetches it. */
static int shown(struct ds_caller *caller) {
    struct ds_request request = {0};
    struct ds_answer answer;
    request.command = DS_CHECK, request.sub = caller->sub, request.max = 1;
    int error = call_store(caller, &request, NULL, 0, &answer);
    if (error) return error;
    if (answer.pieces == 0) return -ENOENT;
    caller->server->waits = caller;
    return fetch_waiting(caller);
}

/* Takes the next item that is for the caller. */
static int next_item(struct ds_caller *caller, struct item *item) {
    do {
        int error = fetch_waiting(caller);
        if (!error && !caller->line[0]) error = shown(caller);
        if (!error) error = read_item(caller->line, item);
        if (error) return error;
        caller->line[0] = '\0';
    } while (!is_for(caller, item));
    return 0;
}

int ds_check(struct ds_caller *caller, char *key, int *type, ds_endpoint_t *owner) {
    struct item item;
    int error = next_item(caller, &item);
    if (error) return error;
    strcpy(key, item.key);
    *type = item.type;
    *owner = 2; /* RS, which has no label */
    if (strcmp(item.owner, "rs") != 0 && ds_retrieve_label_endpt(caller, item.owner, owner) != 0) {
        *owner = 0; /* an owner that is gone has no endpoint */
        caller->refusal = 0;
    }
    return 0;
}
