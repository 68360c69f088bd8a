/* Takes from a driver all rights that it doesn't need once its device is open. */
#ifndef MACHINE_CONFINE_H
#define MACHINE_CONFINE_H

#include <stdint.h>

/* From now on the process is another user's, if it was root's; it makes no file longer than `longest`; and any system call ends it by
 * SIGSYS, except for those that serve what is open. It exits if this can't be had. */
void confine(uint64_t longest);

#endif
