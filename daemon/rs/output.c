/* The output of services. See output.h. */
#include "output.h"
#include "clock.h"
#include "descriptors.h"
#include <fcntl.h>
#include <poll.h>
#include <string.h>
#include <sys/epoll.h>
#include <sys/ioctl.h>
#include <unistd.h>

void output_open(struct output *output, int epoll, bool has_logger) {
    int ends[2];
    *output = (struct output){.from.file = -1, .to = -1};
    if (!descriptors_are_there(2) || pipe2(ends, O_CLOEXEC)) return;
    *output = (struct output){.from.file = ends[0], .to = ends[1], .is_read = !has_logger};
    if (has_logger || (!fcntl(ends[0], F_SETFL, O_NONBLOCK) && watch_open(&output->from, epoll, ends[0], EPOLLIN))) return;
    close(ends[0]);
    close(ends[1]);
    *output = (struct output){.from.file = -1, .to = -1};
}

/* ---- lines ---- */

/* Waits until standard error has room, or the time is over. */
static void wait_for_room(struct outlet *outlet) {
    struct pollfd it = {.fd = outlet->log->descriptor, .events = POLLOUT};
    uint64_t begun = clock_now();
    if (outlet->patience) poll(&it, 1, (int)outlet->patience);
    uint64_t took = clock_now() - begun;
    outlet->patience -= took < outlet->patience ? took : outlet->patience;
}

/* Returns false if standard error is full. */
static bool put_line(struct outlet *outlet) {
    struct output *output = outlet->output;
    bool put = log_pass(outlet->log, outlet->label, output->line, output->length);
    if (!put && outlet->is_last) {
        wait_for_room(outlet);
        put = log_pass(outlet->log, outlet->label, output->line, output->length);
        outlet->log->left_out += !put;
    }
    outlet->is_full = !put && !outlet->is_last;
    if (!outlet->is_full) output->length = 0;
    return !outlet->is_full;
}

bool outlet_push(struct outlet *outlet, uint64_t until) {
    struct output *output = outlet->output;
    while (outlet->at < outlet->count) {
        char byte = outlet->bytes[outlet->at];
        bool is_whole = byte == '\n' || output->length == OUTPUT_LINE;
        if (is_whole && !put_line(outlet)) return false;
        if (byte != '\n') output->line[output->length++] = byte;
        outlet->at++;
        if (is_whole && clock_now() >= until) return false;
    }
    return true;
}

/* ---- pieces ---- */

/* Reads a piece into an empty outlet. Returns the number of bytes, or a number below 1. */
static ssize_t read_piece(struct output *output, const char *label, struct outlet *outlet) {
    ssize_t got = read(output->from.file, outlet->bytes, sizeof outlet->bytes);
    outlet->output = output;
    outlet->label = label;
    outlet->at = 0;
    outlet->count = got > 0 ? (size_t)got : 0;
    return got;
}

bool output_pass(struct output *output, const char *label, struct outlet *outlet, uint64_t until) {
    output->from.ready = 0;
    if (!output->is_read) return true;
    if (!read_piece(output, label, outlet)) output->is_read = false; /* nobody has the other end */
    return outlet_push(outlet, until);
}

void output_watch(struct output *output, int epoll, const struct outlet *outlet) {
    if (output->from.file >= 0) watch_for(&output->from, epoll, output->is_read && !outlet->is_full ? EPOLLIN : 0);
}

/* ---- ends ---- */

/* Returns an outlet that waits for nobody, with the bytes of an output that another outlet holds. */
static struct outlet last_of(const struct output *output, const char *label, struct outlet *outlet) {
    struct outlet last = {.log = outlet->log, .label = label, .is_last = true, .patience = outlet->patience};
    if (outlet->output == output) {
        last.count = outlet->count - outlet->at;
        memcpy(last.bytes, outlet->bytes + outlet->at, last.count);
        outlet->at = outlet->count = 0;
    }
    return last;
}

void output_hand_over(struct output *output, const char *label, struct outlet *outlet) {
    struct outlet last = last_of(output, label, outlet);
    last.output = output;
    outlet_push(&last, UINT64_MAX);
    if (output->length) put_line(&last);
    output->is_read = false;
}

void output_take_back(struct output *output) { output->is_read = !fcntl(output->from.file, F_SETFL, O_NONBLOCK); }

void output_end(struct output *output) {
    if (output->to >= 0) close(output->to);
    output->to = -1;
}

/* A process that lives on may hold the other end, and write without end. So the bytes in the pipe now are the last. */
void output_close(struct output *output, int epoll, const char *label, struct outlet *outlet) {
    struct outlet last = last_of(output, label, outlet);
    int left = 0;
    output_end(output);
    last.output = output;
    outlet_push(&last, UINT64_MAX);
    if (output->from.file >= 0) fcntl(output->from.file, F_SETFL, O_NONBLOCK), ioctl(output->from.file, FIONREAD, &left);
    for (; left > 0 && read_piece(output, label, &last) > 0; left -= (int)last.count) outlet_push(&last, UINT64_MAX);
    if (output->length) put_line(&last);
    outlet->patience = last.patience;
    watch_close(&output->from, epoll);
}
