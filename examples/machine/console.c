/* console PAPER: a character driver, which prints on a file. Characters that are printed can't be taken back, so a request that a dead
 * driver had isn't sent again: the application that made it gets the fault. */
#include "confine.h"
#include "driver.h"
#include <fcntl.h>
#include <unistd.h>

static int paper;

static void serve(struct frame *frame) {
    struct head *head = &frame->head;
    bool done = head->verb == PUT && write(paper, frame->data, head->length) == (ssize_t)head->length;
    head->verb = done ? DONE : FAILED;
    head->length = 0;
}

int main(int count, char **words) {
    paper = count == 2 ? open(words[1], O_WRONLY | O_APPEND | O_CREAT | O_CLOEXEC, 0666) : -1;
    driver_must(paper >= 0);
    confine(1 << 30);
    driver_run(&(struct driving){.serve = serve, .device = -1});
}
