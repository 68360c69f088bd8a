/* The calls of MINIX 3's data store (DS), over ds.h: those of a driver, a server or RS, with MINIX's flags and errors.
 *
 * Callers share a struct ds_server, which has the store's handle. It begins as DS_SERVER_CLOSED. Open it by ds_open of its field store, and
 * close it by ds_close. Each caller has a struct ds_caller of its own, which begins with zeros. Set its server, its endpoint and its
 * subscription, and don't move it while its server is open. An endpoint is generation * 1024 + slot. The calls are those of MINIX 3.3's
 * lib/libsys/ds.c, written from knowledge of them, not copied. They return 0, or an error of errno.h, negative, as in MINIX. Several
 * refusals of the store share one error; the caller's field refusal has the store's own.
 *
 * Left out: ds_publish_map, ds_snapshot_map and ds_retrieve_map, which share memory, and getsysinfo. These calls are tested; the
 * store below them is proved. */
#ifndef MINIX_DS_H
#define MINIX_DS_H

#include "ds.h"

#ifdef __cplusplus
extern "C" {
#endif

typedef uint32_t ds_endpoint_t;
#define DS_ENDPOINT(generation, slot) ((ds_endpoint_t)(generation) * 1024 + (slot))

/* Flags, as MINIX 3 names them; the values of the types are those of enum ds_kinds. */
#define DSF_TYPE_U32 DS_U32
#define DSF_TYPE_STR DS_STR
#define DSF_TYPE_MEM DS_MEM
#define DSF_TYPE_LABEL DS_LABEL
#define DSF_MASK_TYPE 0xff
#define DSF_OVERWRITE 0x01000
#define DSF_INITIAL 0x02000

#define DS_MAX_KEYLEN 65 /* a key has at most 64 bytes, and a zero after them */

#define DS_MAX_LINE DS_MAX_PIECE /* bytes of the line of an item */
#define DS_MAX_KEYS 4096         /* keys that a store holds */

struct ds_caller;

/* A store that callers share. */
struct ds_server {
    struct ds_handle store;
    struct ds_caller *waits; /* if memory ran out: the caller whose item isn't fetched yet; else NULL */
};
#define DS_SERVER_CLOSED { DS_CLOSED, NULL }

/* A caller. sub is the caller's subscription, 0 to 127; no two callers share one. */
struct ds_caller {
    struct ds_server *server;
    ds_endpoint_t endpoint;
    uint32_t sub;
    uint32_t seq;      /* the number of the last change in this generation; begins at 0 */
    uint32_t refusal;  /* of enum ds_refusal: why the last call was refused, or 0 */
    uint8_t owed[16];  /* a bit for each subscription that is owed a notice; the caller clears the bits */
    char line[DS_MAX_LINE + 1]; /* the item that was shown but not returned yet, or nothing */
    uint64_t given[DS_MAX_KEYS]; /* a mark for each entry that ds_check returned, 0 if free: 32 KB, so no call takes memory for them */
};

/* The caller of a process that has one, for the calls of minix/ds.h, which have MINIX's own signatures. Begins as NULL: set it first. */
extern struct ds_caller *ds_self;

/* Publishes where a service is. Only RS, whose endpoint is 0/2, may do so. Publishing the same endpoint again changes nothing. */
int ds_publish_label(struct ds_caller *caller, const char *label, ds_endpoint_t endpoint, int flags);
/* Publishes a number, a string, or memory of at most 1024 bytes, in the caller's name. */
int ds_publish_u32(struct ds_caller *caller, const char *name, uint32_t value, int flags);
int ds_publish_str(struct ds_caller *caller, const char *name, const char *value, int flags);
int ds_publish_mem(struct ds_caller *caller, const char *name, const void *value, size_t length, int flags);

int ds_retrieve_label_name(struct ds_caller *caller, char *name, ds_endpoint_t endpoint); /* name: DS_MAX_KEYLEN bytes */
int ds_retrieve_label_endpt(struct ds_caller *caller, const char *label, ds_endpoint_t *endpoint);
int ds_retrieve_u32(struct ds_caller *caller, const char *name, uint32_t *value);
/* Retrieves a string of at most length bytes, and a zero after them: value has room for length + 1. A longer one is E2BIG, and nothing is
 * written. */
int ds_retrieve_str(struct ds_caller *caller, const char *name, char *value, size_t length);
/* *length is the size of value, and becomes the number of bytes retrieved. */
int ds_retrieve_mem(struct ds_caller *caller, const char *name, void *value, size_t *length);

int ds_delete_label(struct ds_caller *caller, const char *label);
int ds_delete_u32(struct ds_caller *caller, const char *name);
int ds_delete_str(struct ds_caller *caller, const char *name);
int ds_delete_mem(struct ds_caller *caller, const char *name);

/* Subscribes to entries whose whole name matches the pattern, of the types in flags, or of all types if flags has none. */
int ds_subscribe(struct ds_caller *caller, const char *pattern, int flags);
/* Returns the name, type and owner of the next entry that changed; ENOENT if there is none. key has DS_MAX_KEYLEN bytes. A deleted entry is
 * returned only if an earlier check returned it to this caller; it can no longer be retrieved. DS, too, forgets deleted entries. A floor is
 * returned with its owner's name, and type 0. ENOMEM loses nothing: the next check returns the same entry. Until then, each call of any
 * caller that shares the server fetches that entry first, and returns ENOMEM if it can't. So call the store by ds.h, as for a sweep of RS,
 * only while the server's waits is NULL. *owner is 0/2 for a label, and 0 for an owner that has no live label. */
int ds_check(struct ds_caller *caller, char *key, int *type, ds_endpoint_t *owner);

#ifdef __cplusplus
}
#endif

#endif
