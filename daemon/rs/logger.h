/* The log program of a service, LABEL/log/run, which reads the service's output. dsrs keeps the pipe, so no line is lost when the
 * program ends; the next start comes a second later. */
#ifndef DSRS_LOGGER_H
#define DSRS_LOGGER_H

#include "events.h"
#include "watch.h"
#include <stdbool.h>
#include <stdint.h>
#include <sys/types.h>

struct logger {
    struct watch pidfd;
    const struct logger *next;
    pid_t pid;          /* 0: not running */
    int input;          /* the end of the pipe for reading */
    uint64_t due;       /* when the program is started or, while ending, killed, by clock_now; 0: nothing is due */
    bool ends;
};

/* Prepares a log program to read from a pipe; -1: there is none. */
void logger_open(struct logger *logger, int input);
/* Lets the program end once the pipe has no writer: after a grace period, dsrs kills the program. */
void logger_end(struct logger *logger, uint64_t grace);
/* Starts, reaps or kills the program, as is due. Returns whether the program runs or is to be started. */
bool logger_turn(struct logger *logger, const char *services, const char *label, int epoll, struct events *events);

#endif
