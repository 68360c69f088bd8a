/* The part of the library for C that isn't proved: a version text, and the sizes of the structs. tools/build adds this part to libds_c.a.
 *
 * A function that Rattle exports returns no pointer. So the text is plain C. */
#include "ds.h"

/* The layout of version 1 of the library. A program that was built by another one would hand over other structs. */
_Static_assert(sizeof(struct ds_request) == 136, "struct ds_request");
_Static_assert(sizeof(struct ds_answer) == 88, "struct ds_answer");
_Static_assert(sizeof(struct ds_given) == 24, "struct ds_given");
_Static_assert(sizeof(struct ds_handle) == 8 && sizeof(struct ds_map) == 8, "handles");

const char *ds_version(void) { return DS_VERSION; }
