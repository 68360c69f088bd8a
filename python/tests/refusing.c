/* Linked into a libds.so for test_growth.py and tests/programs/store: refuses growths of the library's memory, and none of Python's.
 * Link with -Wl,--wrap=malloc,--wrap=realloc. */
#define _GNU_SOURCE
#include <dlfcn.h>
#include <pthread.h>
#include <stddef.h>
#include <string.h>

enum { STACK = 1 << 13 };

void *__real_malloc(size_t size);
void *__real_realloc(void *old, size_t size);
void *__wrap_malloc(size_t size);
void *__wrap_realloc(void *old, size_t size);

long growths_left = -1; /* how many are given before one is refused; -1: all */
long growths_asked;
int growths_once; /* one alone is refused, else all after it too */

/* Of the growth that was refused last: where the library is loaded, and the words of the stack from there up. */
unsigned long growths_stack[STACK];
size_t growths_stack_words;

static _Thread_local char *stack_end;

static void find_stack_end(void) {
    pthread_attr_t attributes;
    void *lowest;
    size_t size;
    if (pthread_getattr_np(pthread_self(), &attributes) == 0) {
        if (pthread_attr_getstack(&attributes, &lowest, &size) == 0) {
            stack_end = (char *)lowest + size;
        }
        pthread_attr_destroy(&attributes);
    }
}

static void keep_stack(const char *frame) {
    Dl_info library;
    growths_stack_words = 0;
    if (!stack_end) {
        find_stack_end();
    }
    if (!stack_end || !dladdr(&growths_left, &library)) {
        return;
    }
    size_t words = (size_t)(stack_end - frame) / sizeof *growths_stack;
    growths_stack_words = 1 + (words < STACK ? words : STACK - 1);
    growths_stack[0] = (unsigned long)library.dli_fbase;
    memcpy(growths_stack + 1, frame, (growths_stack_words - 1) * sizeof *growths_stack);
}

static int is_refused(void) {
    growths_asked++;
    if (growths_left > 0) {
        growths_left--;
        return 0;
    }
    int refused = growths_left == 0;
    if (refused) {
        keep_stack(__builtin_frame_address(0));
    }
    if (refused && growths_once) {
        growths_left = -1;
    }
    return refused;
}

void *__wrap_malloc(size_t size) {
    return is_refused() ? NULL : __real_malloc(size);
}

void *__wrap_realloc(void *old, size_t size) {
    return is_refused() ? NULL : __real_realloc(old, size);
}
