/* MINIX 3's data store (DS) with MINIX 3's own signatures, over minix_ds.h, whose calls have a caller. So the source of a driver or a server
 * that includes <minix/ds.h> compiles unchanged: put the folder of this one before MINIX's, and compile minix_ds.c, too.
 *
 * The caller of each call is that of the process, ds_self: set it before the first call. Its store is in this process. With _SYSTEM
 * defined, as in MINIX's own programs, the errors of errno.h that these calls return are negative; else compare with -ENOENT. The
 * signatures are those of MINIX 3.3's include/minix/ds.h, written from knowledge of them, not copied. docs/reference/minix.md says what differs. */
#ifndef MINIX_OWN_DS_H
#define MINIX_OWN_DS_H

#include "../minix_ds.h"
#include <errno.h>

#ifdef __cplusplus
extern "C" {
#endif

/* MINIX's names of types, an answer without an error, and the number that a driver publishes under `drv.net.LABEL` once it is up. */
typedef int endpoint_t;
typedef uint32_t u32_t;
#ifndef OK
#define OK 0
#endif
#define DS_DRIVER_UP 1

#ifdef _SYSTEM
#undef EPERM
#undef ENOENT
#undef ESRCH
#undef EIO
#undef E2BIG
#undef ENOMEM
#undef EEXIST
#undef EINVAL
#undef ENOSPC
#define EPERM (-1)
#define ENOENT (-2)
#define ESRCH (-3)
#define EIO (-5)
#define E2BIG (-7)
#define ENOMEM (-12)
#define EEXIST (-17)
#define EINVAL (-22)
#define ENOSPC (-28)
#endif

static inline int ds_own_publish_label(const char *label, endpoint_t endpoint, int flags) {
    return ds_publish_label(ds_self, label, (ds_endpoint_t)endpoint, flags);
}
static inline int ds_own_publish_u32(const char *name, u32_t value, int flags) { return ds_publish_u32(ds_self, name, value, flags); }
static inline int ds_own_publish_str(const char *name, const char *value, int flags) {
    return ds_publish_str(ds_self, name, value, flags);
}
static inline int ds_own_publish_mem(const char *name, const void *value, size_t length, int flags) {
    return ds_publish_mem(ds_self, name, value, length, flags);
}
static inline int ds_own_retrieve_label_name(char *name, endpoint_t endpoint) {
    return ds_retrieve_label_name(ds_self, name, (ds_endpoint_t)endpoint);
}
static inline int ds_own_retrieve_label_endpt(const char *label, endpoint_t *endpoint) {
    ds_endpoint_t found;
    int error = ds_retrieve_label_endpt(ds_self, label, &found);
    if (!error) *endpoint = (endpoint_t)found;
    return error;
}
static inline int ds_own_retrieve_u32(const char *name, u32_t *value) { return ds_retrieve_u32(ds_self, name, value); }
static inline int ds_own_retrieve_str(const char *name, char *value, size_t length) {
    return ds_retrieve_str(ds_self, name, value, length);
}
static inline int ds_own_retrieve_mem(const char *name, char *value, size_t *length) {
    return ds_retrieve_mem(ds_self, name, value, length);
}
static inline int ds_own_delete_label(const char *label) { return ds_delete_label(ds_self, label); }
static inline int ds_own_delete_u32(const char *name) { return ds_delete_u32(ds_self, name); }
static inline int ds_own_delete_str(const char *name) { return ds_delete_str(ds_self, name); }
static inline int ds_own_delete_mem(const char *name) { return ds_delete_mem(ds_self, name); }
static inline int ds_own_subscribe(const char *pattern, int flags) { return ds_subscribe(ds_self, pattern, flags); }
static inline int ds_own_check(char *key, int *type, endpoint_t *owner) {
    ds_endpoint_t found;
    int error = ds_check(ds_self, key, type, &found);
    if (!error) *owner = (endpoint_t)found;
    return error;
}

#define ds_publish_label ds_own_publish_label
#define ds_publish_u32 ds_own_publish_u32
#define ds_publish_str ds_own_publish_str
#define ds_publish_mem ds_own_publish_mem
#define ds_retrieve_label_name ds_own_retrieve_label_name
#define ds_retrieve_label_endpt ds_own_retrieve_label_endpt
#define ds_retrieve_u32 ds_own_retrieve_u32
#define ds_retrieve_str ds_own_retrieve_str
#define ds_retrieve_mem ds_own_retrieve_mem
#define ds_delete_label ds_own_delete_label
#define ds_delete_u32 ds_own_delete_u32
#define ds_delete_str ds_own_delete_str
#define ds_delete_mem ds_own_delete_mem
#define ds_subscribe ds_own_subscribe
#define ds_check ds_own_check

#ifdef __cplusplus
}
#endif

#endif
