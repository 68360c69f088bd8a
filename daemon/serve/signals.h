/* The first steps of a server: signals from a descriptor, and the number of the run. */
#ifndef SERVE_SIGNALS_H
#define SERVE_SIGNALS_H

#include <stddef.h>
#include <stdint.h>

/* Returns a descriptor from which these signals are read without waiting, or -1 with errno. Also ignores SIGPIPE. */
int signals_open(const int signals[], size_t count);
/* Returns another number in each run: nanoseconds of the calendar. The store's incarnation. */
uint64_t run_number(void);

#endif
