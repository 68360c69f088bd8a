/* Refuses growths of memory to a program in one file that is linked with -Wl,--wrap=malloc,--wrap=realloc. */
#ifndef GROWTHS_H
#define GROWTHS_H

#include <stdlib.h>

void *__real_malloc(size_t);
void *__real_realloc(void *, size_t);
static long left = -1, asked; /* how many growths succeed before one is refused, -1: all; how many were asked for */
static int once;              /* whether only one is refused, and not all after it */

static int fails(void) {
    asked++;
    if (left < 0) return 0;
    if (left == 0) {
        if (once) left = -1;
        return 1;
    }
    left--;
    return 0;
}
void *__wrap_malloc(size_t n);
void *__wrap_realloc(void *p, size_t n);
void *__wrap_malloc(size_t n) { return fails() ? NULL : __real_malloc(n); }
void *__wrap_realloc(void *p, size_t n) { return fails() ? NULL : __real_realloc(p, n); }

#endif
