/* The file server's requests. See mirror.h. */
#include "mirror.h"
#include "clients.h"
#include <fcntl.h>
#include <stdlib.h>
#include <sys/mman.h>
#include <sys/stat.h>

enum { TRIES = 3 /* of writing a block back */ };
enum purpose { READING, WRITING, PROBING, PRINTING };

static struct task task[TASKS];
static struct driver *probe, *console, *disk;
static unsigned copies;
static uint64_t blocks, *sums, arrivals;
static uint16_t *holder;       /* of each block: the task that works on it, counted from 1; 0: none */
static uint8_t *lost[COPIES];  /* of each block: whether its copy can't be written back */
static unsigned used, waiting; /* tasks */

bool mirror_open(const char *path, struct driver *drivers, unsigned count) {
    struct stat about;
    int file = open(path, O_RDWR | O_CLOEXEC);
    probe = drivers;
    console = drivers + 1;
    disk = drivers + 2;
    copies = count - 2;
    if (file < 0 || fstat(file, &about) || copies < 1 || copies > COPIES) return false;
    blocks = (uint64_t)about.st_size / sizeof *sums;
    sums = mmap(NULL, (size_t)about.st_size, PROT_READ | PROT_WRITE, MAP_SHARED, file, 0);
    holder = calloc(blocks, sizeof *holder);
    for (unsigned i = 0; i < copies; i++) lost[i] = calloc(blocks, 1);
    return sums != MAP_FAILED && holder && lost[0] && lost[copies - 1];
}

bool mirror_has_room(void) { return used < TASKS; }

static unsigned number_of(const struct task *it) { return (unsigned)(it - task); }

static void note(const char *what, unsigned copy, struct endpoint at) { drivers_note(what, &disk[copy], at, ""); }

/* ---- requests to drivers ---- */

static void ask(struct task *it, unsigned copy, enum verb verb) {
    struct head head = {.place = it->asked.place, .verb = verb, .length = verb == WRITE ? BLOCK : 0};
    enum purpose purpose = verb == WRITE ? WRITING : READING;
    it->copy[copy].state = ASKED;
    drivers_ask(&disk[copy], head, it->data, number_of(it), purpose * COPIES + copy);
}

/* The probe numbers the blocks of the second disk after those of the first. */
static void ask_probe(struct task *it, unsigned copy) {
    struct head head = {.place = it->asked.place + copy * blocks, .verb = READ};
    it->copy[copy].state = SUSPECT;
    drivers_ask(probe, head, NULL, number_of(it), PROBING * COPIES + copy);
}

static void print(struct task *it) {
    struct head head = {.place = it->asked.place, .verb = PUT, .length = it->asked.length};
    drivers_ask(console, head, it->data, number_of(it), PRINTING * COPIES);
}

/* Readings are spread over both copies. One whose driver is away, or that is lost, leaves them to the other. */
static unsigned copy_to_read(const struct task *it) {
    unsigned first = copies > 1 ? (unsigned)(it->arrival * 0x9E3779B97F4A7C15u >> 63) : 0, other = copies - 1 - first;
    bool is_good = drivers_is_here(&disk[first]) && !lost[first][it->asked.place];
    return is_good || !drivers_is_here(&disk[other]) || lost[other][it->asked.place] ? first : other;
}

static void begin(struct task *it) {
    uint64_t block = it->asked.place;
    if (it->asked.verb == PUT) {
        print(it);
        return;
    }
    holder[block] = (uint16_t)(number_of(it) + 1);
    if (it->asked.verb == READ) {
        ask(it, copy_to_read(it), READ);
        return;
    }
    if (it->asked.verb == WRITE) sums[block] = sum_of(block, it->data, BLOCK);
    it->has_data = it->asked.verb == WRITE;
    for (unsigned i = 0; i < copies; i++) {
        lost[i][block] = 0;
        ask(it, i, it->asked.verb == WRITE ? WRITE : READ);
    }
}

/* ---- how a request ends ---- */

static void free_task(struct task *it) {
    if (!it->is_settled || !it->is_sent) return;
    it->is_used = false;
    used--;
}

/* The block is free for the request that came first of those that wait for it. */
static void settle(struct task *it) {
    struct task *next = NULL;
    it->is_settled = true;
    if (it->asked.verb != PUT) holder[it->asked.place] = 0;
    for (unsigned i = 0; i < TASKS && waiting && it->asked.verb != PUT; i++) {
        bool fits = task[i].is_used && task[i].waits && task[i].asked.place == it->asked.place;
        if (fits && (!next || task[i].arrival < next->arrival)) next = &task[i];
    }
    free_task(it);
    if (!next) return;
    next->waits = false;
    waiting--;
    begin(next);
}

static void answer(struct task *it, enum verb result) {
    if (it->is_answered) return;
    it->is_answered = true;
    it->result = result;
    if (it->client >= 0) clients_answer(it->client, number_of(it));
    else it->is_sent = true;
}

struct frame mirror_answer(unsigned number) {
    const struct task *it = &task[number];
    struct frame frame = {.head = {.id = it->asked.id, .place = it->asked.place, .verb = it->result}};
    if (it->asked.verb != READ || it->result != DONE) return frame;
    frame.head.length = BLOCK;
    memcpy(frame.data, it->data, BLOCK);
    return frame;
}

void mirror_sent(unsigned number) {
    task[number].is_sent = true;
    free_task(&task[number]);
}

void mirror_drop(int client) {
    for (unsigned i = 0; i < TASKS; i++) {
        struct task *it = &task[i];
        if (!it->is_used || it->client != client) continue;
        it->client = -1;
        it->is_sent = it->is_answered;
        free_task(it);
    }
}

/* ---- answers of drivers ---- */

static bool is_right(struct task *it, const struct frame *said) {
    if (said->head.verb != DONE || sum_of(it->asked.place, said->data, BLOCK) != sums[it->asked.place]) return false;
    if (!it->has_data) memcpy(it->data, said->data, BLOCK);
    it->has_data = true;
    return true;
}

static void was_read(struct task *it, unsigned copy, const struct job *job, const struct frame *said) {
    it->copy[copy].by = job->driver->at;
    if (is_right(it, said)) {
        it->copy[copy].state = RIGHT;
        return;
    }
    note("wrong", copy, job->driver->at);
    ask_probe(it, copy);
}

/* The probe looks after a block was written back, or couldn't be written. */
static void was_written(struct task *it, unsigned copy, const struct job *job, const struct frame *said) {
    it->copy[copy].by = job->driver->at;
    it->copy[copy].was_written = it->copy[copy].tries || said->head.verb != DONE;
    if (it->copy[copy].was_written) ask_probe(it, copy);
    else it->copy[copy].state = RIGHT;
}

static void was_probed(struct task *it, unsigned number, const struct frame *said) {
    struct copy *copy = &it->copy[number];
    bool right = is_right(it, said);
    if (right && copy->was_written) note("healed", number, copy->by);
    else if (right) drivers_blame(&disk[number], copy->by, "it reads a right disk wrongly");
    else if (copy->was_written) drivers_blame(&disk[number], copy->by, "it writes wrongly");
    copy->state = right ? RIGHT : WRONG;
    copy->tries += !right;
}

/* Asks for what a copy lacks. Returns whether its driver or the probe is at work. */
static bool mend(struct task *it, unsigned number) {
    struct copy *copy = &it->copy[number];
    if (copy->state == WRONG && copy->tries > TRIES) {
        copy->state = LOST;
        lost[number][it->asked.place] = 1;
        note("lost", number, copy->by);
    }
    if (copy->state == WRONG && it->has_data) ask(it, number, WRITE);
    bool is_next = copy->state == UNREAD && it->asked.verb == READ && !it->has_data && it->copy[copies - 1 - number].state != ASKED;
    if (is_next) ask(it, number, READ);
    return copy->state == ASKED || copy->state == SUSPECT;
}

static void advance(struct task *it) {
    bool works = false, all = true, any = false;
    for (unsigned i = 0; i < copies; i++) works |= mend(it, i);
    for (unsigned i = 0; i < copies; i++) {
        all &= it->copy[i].state == RIGHT;
        any |= it->copy[i].state == RIGHT;
    }
    if (it->asked.verb == READ && it->has_data) answer(it, DONE);
    if (works) return;
    answer(it, it->asked.verb == CHECK ? (all ? DONE : FAILED) : any ? DONE : FAILED);
    settle(it);
}

void mirror_done(struct job *job, const struct frame *said) {
    struct task *it = &task[job->task];
    unsigned copy = job->step % COPIES;
    switch ((enum purpose)(job->step / COPIES)) {
    case READING: was_read(it, copy, job, said); break;
    case WRITING: was_written(it, copy, job, said); break;
    case PROBING: was_probed(it, copy, said); break;
    case PRINTING:
        answer(it, said ? said->head.verb : FAULT);
        settle(it);
        return;
    }
    advance(it);
}

/* ---- requests ---- */

static bool is_request(const struct frame *frame, ptrdiff_t got) {
    const struct head *head = &frame->head;
    if (!frame_is_whole(frame, got)) return false;
    if (head->verb == PUT) return head->length > 0;
    if (head->place >= blocks) return false;
    return head->verb == WRITE ? head->length == BLOCK : (head->verb == READ || head->verb == CHECK) && !head->length;
}

bool mirror_take(int client, const struct frame *frame, ptrdiff_t got) {
    unsigned number = 0;
    if (!is_request(frame, got)) return false;
    while (task[number].is_used) number++;
    struct task *it = &task[number];
    memset(it, 0, offsetof(struct task, data));
    it->is_used = true;
    it->client = client;
    it->asked = frame->head;
    it->arrival = ++arrivals;
    it->waits = frame->head.verb != PUT && holder[frame->head.place];
    memcpy(it->data, frame->data, frame->head.length);
    used++;
    waiting += it->waits;
    if (!it->waits) begin(it);
    return true;
}
