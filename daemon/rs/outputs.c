/* The outputs of all services, and their log programs. See outputs.h. */
#include "outputs.h"
#include "clock.h"
#include <limits.h>
#include <stdio.h>
#include <sys/epoll.h>
#include <unistd.h>

enum {
    OUTPUT_TURN = 2, /* milliseconds of a turn for the output of services, */
    LAST_LINES = 200 /* and at the end, while standard error is full */
};

/* ---- who reads ---- */

static bool has_log_program(const struct rs *rs, const struct service *service) {
    char program[PATH_MAX];
    int length = snprintf(program, sizeof program, "%s/%s/log/run", rs->instances.services, service->label);
    return length < (int)sizeof program && !access(program, F_OK);
}

/* The output goes to the service's log program, if there is one. */
void outputs_open(struct rs *rs, struct service *service) {
    bool has_logger = has_log_program(rs, service);
    output_open(&service->output, rs->instances.epoll, has_logger);
    logger_open(&service->logger, has_logger ? service->output.from.file : -1);
}

/* Processes of log programs aren't strays. */
void outputs_list_logs(struct rs *rs) {
    rs->instances.loggers = NULL;
    for (struct service *it = rs->kept; it < rs->kept + KEPT; it++) {
        if (!*it->label) continue;
        it->logger.next = rs->instances.loggers;
        rs->instances.loggers = &it->logger;
    }
}

/* A log program may have come, or gone, since the last start of its service. */
void outputs_look(struct rs *rs, struct service *it) {
    if (it->output.from.file < 0) outputs_open(rs, it), outputs_list_logs(rs); /* no descriptors were free */
    bool had = it->logger.input >= 0, has = it->output.to >= 0 && has_log_program(rs, it);
    if (it->output.from.file < 0 || had == has || it->logger.pid) return;
    if (has) output_hand_over(&it->output, it->label, &rs->outlet);
    else output_take_back(&it->output);
    logger_open(&it->logger, has ? it->output.from.file : -1);
    outputs_list_logs(rs);
}

/* ---- lines ---- */

/* Reads a piece of each service's output, in a circle. A flood of one service delays the others by a piece, and the loop by OUTPUT_TURN. */
bool outputs_pass(struct rs *rs) {
    uint64_t until = clock_now() + OUTPUT_TURN;
    if (rs->outlet.room.ready) rs->outlet.is_full = false;
    rs->outlet.room.ready = 0;
    if (rs->outlet.is_full) return false;
    for (size_t looked = 0; outlet_push(&rs->outlet, until) && looked < KEPT; looked++) {
        struct service *it = &rs->kept[rs->next_output];
        rs->next_output = (rs->next_output + 1) % KEPT;
        if (!*it->label || !it->output.from.ready) continue;
        if (!output_pass(&it->output, it->label, &rs->outlet, until) || clock_now() >= until) break;
    }
    return !rs->outlet.is_full && rs->outlet.at < rs->outlet.count;
}

void outputs_watch(struct rs *rs, uint64_t *due) {
    struct outlet *outlet = &rs->outlet;
    for (struct service *it = rs->kept; it < rs->kept + KEPT; it++)
        if (*it->label) output_watch(&it->output, rs->instances.epoll, outlet);
    watch_for(&outlet->room, rs->instances.epoll, outlet->is_full ? EPOLLOUT : 0);
    if (!outlet->is_full || outlet->room.wanted) return;
    outlet->is_full = false; /* to be tried again */
    if (!*due || clock_now() + OUTPUT_TURN < *due) *due = clock_now() + OUTPUT_TURN;
}

/* ---- log programs ---- */

/* The rest of the output is passed on. */
static void forget_service(struct rs *rs, struct service *service) {
    output_close(&service->output, rs->instances.epoll, service->label, &rs->outlet);
    *service->label = '\0';
    outputs_list_logs(rs);
}

bool outputs_turn_logs(struct rs *rs, uint64_t *due) {
    bool runs = false;
    for (struct service *it = rs->kept; it < rs->kept + KEPT; it++) {
        if (!*it->label) continue;
        bool is_there = logger_turn(&it->logger, rs->instances.services, it->label, rs->instances.epoll, &rs->events);
        if (it->logger.due && (!*due || it->logger.due < *due)) *due = it->logger.due;
        if (it->is_left_out && !is_there) forget_service(rs, it);
        runs |= is_there;
    }
    return runs;
}

void outputs_end_log(struct service *it, uint64_t grace) {
    if (it->output.to < 0) return;
    output_end(&it->output);
    logger_end(&it->logger, grace);
}

void outputs_end_logs(struct rs *rs) {
    uint64_t now = clock_now(), rest = rs->ends_at > now ? rs->ends_at - now : 0;
    for (size_t i = 0; i < rs->services; i++) outputs_end_log(rs->service[i], rest);
}

/* ---- the end ---- */

void outputs_close(struct rs *rs) {
    rs->outlet.patience = LAST_LINES;
    for (struct service *it = rs->kept; it < rs->kept + KEPT; it++)
        if (*it->label) output_close(&it->output, rs->instances.epoll, it->label, &rs->outlet);
    watch_for(&rs->outlet.room, rs->instances.epoll, 0);
}
