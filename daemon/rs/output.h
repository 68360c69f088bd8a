/* The output of services: each line goes to the log with the label in front. A service that prints faster than dsrs reads waits at the pipe.
 * While standard error is full, no service is read, so no line is lost. */
#ifndef DSRS_OUTPUT_H
#define DSRS_OUTPUT_H

#include "log.h"
#include "watch.h"
#include <stddef.h>

enum {
    OUTPUT_LINE = LOG_PASSED, /* bytes of a line; a longer one is cut into several */
    OUTPUT_PIECE = 1 << 12    /* bytes that are read at a time */
};

struct output {
    struct watch from;      /* the end that is read; or -1 */
    bool is_read;           /* whether dsrs reads the output, and not a log program */
    int to;                 /* the end that instances write to, or -1 */
    size_t length;          /* bytes of the line that isn't whole yet */
    char line[OUTPUT_LINE];
};

/* Where lines go. Holds the bytes of one service that were read and not passed on yet. */
struct outlet {
    struct log *log;
    struct watch room;      /* standard error, watched while full */
    bool is_full;
    uint64_t patience;      /* milliseconds that outputs may wait for room when they are closed */
    bool is_last;           /* nothing waits any more: while standard error is full, lines are left out */
    struct output *output;  /* the output whose bytes these are */
    const char *label;
    size_t at, count;       /* from which one on they aren't passed on, and how many there are */
    char bytes[OUTPUT_PIECE];
};

/* Opens a pipe, from which dsrs or a log program reads. Where there can't be one, instances print to dsrs' own standard error. */
void output_open(struct output *output, int epoll, bool has_logger);
/* Lets a log program read, after the lines that dsrs has read are passed on; or dsrs, once there is none. */
void output_hand_over(struct output *output, const char *label, struct outlet *outlet);
void output_take_back(struct output *output);
/* Passes on the bytes in the outlet, until a time by clock_now. Returns whether that was all. */
bool outlet_push(struct outlet *outlet, uint64_t until);
/* Reads some kilobytes into an outlet that holds nothing, and passes them on. Returns whether that was all. */
bool output_pass(struct output *output, const char *label, struct outlet *outlet, uint64_t until);
/* Watches a pipe unless the outlet is full. */
void output_watch(struct output *output, int epoll, const struct outlet *outlet);
/* Closes the end for writing: a log program reads the rest. */
void output_end(struct output *output);
/* Passes on the bytes in the pipe, and closes the pipe. */
void output_close(struct output *output, int epoll, const char *label, struct outlet *outlet);

#endif
