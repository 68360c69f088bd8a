/* Runs RS beside a store: a caller's mistakes, each action by its struct, and memory that runs out at each allocation. Link with
 * -Wl,--wrap=malloc,--wrap=realloc. */
#include "ds.h"
#include "growths.h"
#include <inttypes.h>
#include <stdio.h>
#include <stdlib.h>
#include <string.h>

static const char settings[] =
    "slots = 4\n"
    "[[service]]\n"
    "label = \"disk\"\nclass = \"block\"\nunit = 3\nperiod = 5\nlimit = 1\npublishes = [\"disk.size\"]\n"
    "[[service]]\n"
    "label = \"vfs\"\nclass = \"server\"\n";

static struct ds_handle store = DS_CLOSED;
static struct ds_answer answer;
static struct ds_rs_action action;
static struct ds_rs_service service;
static struct ds_settings_fault fault;
static long waited, bad;

static const char *const kinds[] = {"kill", "start", "ping", "offer", "sweep", "giveup"};
static const char *const states[] = {"down", "up", "waiting", "given up"};

static struct ds_rs_event event(uint32_t kind, uint64_t tick) {
    return (struct ds_rs_event){.kind = kind, .tick = tick};
}

static struct ds_rs_event of_label(uint32_t kind, const char *label, uint64_t tick) {
    struct ds_rs_event it = event(kind, tick);
    it.label_length = (uint8_t)strlen(label);
    memcpy(it.label, label, strlen(label));
    return it;
}

static struct ds_rs_event of_instance(uint32_t kind, uint32_t generation, uint16_t slot, uint32_t cause, uint64_t tick) {
    struct ds_rs_event it = event(kind, tick);
    it.generation = generation, it.slot = slot, it.cause = cause;
    return it;
}

/* Reports an event, and prints its answer and its actions. */
static void report(const char *what, struct ds_rs_event it) {
    memset(&answer, 0xee, sizeof answer);
    uint32_t call = ds_rs_event(&store, &it, &answer);
    printf("%s: call %u, %s %s, count %u, owed %d\n", what, call, ds_word_text(answer.word), ds_refusal_text(answer.refusal),
           (unsigned)answer.count, ds_is_owed(&answer, 40));
    for (size_t at = 0; ds_rs_action(&store, at, &action) == 0; at++) {
        printf("  %s %.*s %u/%u", kinds[action.kind], action.label_length, action.label, action.generation, action.slot);
        if (action.kind == DS_RS_OFFER || action.kind == DS_RS_SWEEP)
            printf(", gone %u: %s %s", action.gone, ds_word_text(action.word), ds_refusal_text(action.refusal));
        puts("");
        for (size_t i = action.label_length; i < sizeof action.label; i++) bad += action.label[i] != 0;
    }
}

static void show(size_t index) {
    uint32_t call = ds_rs_service(&store, index, &service);
    if (call) {
        printf("service %u: %s\n", (unsigned)index, ds_refusal_text(call));
        return;
    }
    printf("service %u: %.*s class %u unit %u %u period %u limit %u: %s %u/%u failures %u until %" PRIu64 "\n", (unsigned)index,
           service.label_length, service.label, service.service_class, service.has_unit, service.unit, service.period, service.limit,
           states[service.state], service.generation, service.slot, service.failures, service.until);
}

static void due(void) {
    uint64_t tick = 77;
    uint32_t generation = 77, call = ds_rs_due(&store, &tick), next = ds_rs_next(&store, &generation);
    printf("due: %s", ds_refusal_text(call));
    printf(tick == UINT64_MAX ? " never" : " %" PRIu64, tick);
    printf(", next: %s %u\n", ds_refusal_text(next), generation);
}

static void may(const char *what, uint32_t generation, uint16_t slot, unsigned kind, const char *name) {
    printf("%s may publish: %s\n", what, ds_refusal_text(ds_rs_may_publish(&store, generation, slot, (uint8_t)kind, name, strlen(name))));
}

/* Prints what the instance may do to the service with a label. */
static void deals(const char *what, uint32_t generation, uint16_t slot, const char *label) {
    printf("%s, %s: complain %s, connect %s\n", what, label,
           ds_refusal_text(ds_rs_may_complain(&store, generation, slot, label, strlen(label))),
           ds_refusal_text(ds_rs_may_connect(&store, generation, slot, label, strlen(label))));
}

static void rs_open(const char *what, const char *text, size_t length, uint32_t next, uint16_t slot) {
    memset(&fault, 0xee, sizeof fault);
    uint32_t call = ds_rs_open(&store, text, length, next, slot, &fault);
    printf("%s: %s", what, ds_refusal_text(call));
    if (fault.cause != 0xeeeeeeee) printf(", %s of service %d, line %" PRIu64, ds_refusal_text(fault.cause), (int)fault.service, fault.line);
    puts("");
}

static void nothing(void) {
    struct ds_rs_event it = event(DS_RS_TICK, 1);
    memset(&answer, 0xee, sizeof answer), memset(&action, 0xee, sizeof action), memset(&service, 0xee, sizeof service);
    rs_open("RS in a closed handle", settings, sizeof settings - 1, 1, 16);
    printf("an event: %s\n", ds_refusal_text(ds_rs_event(&store, &it, &answer)));
    printf("an action: %s\n", ds_refusal_text(ds_rs_action(&store, 0, &action)));
    show(0);
    due();
    may("an instance", 1, 16, DS_U32, "disk.size");
    deals("an instance", 1, 16, "disk");
    printf("the places are untouched: %d\n", answer.word == 0xeeeeeeee && action.kind == 0xeeeeeeee && service.state == 0xeeeeeeee);
    if (ds_open(&store, 1, 0, 256)) exit(1);
    report("a tick before RS is open", it);
    report("an event of a label", of_label(DS_RS_UP, "disk", 1));
    report("a beat", of_instance(DS_RS_BEAT, 1, 16, 0, 1));
    show(0);
    due();
    may("an instance", 1, 16, DS_U32, "disk.size");
    deals("an instance", 1, 16, "disk");
}

static void openings(void) {
    rs_open("no TOML", "[[service", 9, 1, 16);
    rs_open("bytes 0xff", "\xff\xff", 2, 1, 16);
    static const char two[] = "[[service]]\nlabel = \"a\"\nclass = \"server\"\n[[service]]\nlabel = \"b\"\n";
    rs_open("a second service without a class", two, sizeof two - 1, 1, 16);
    rs_open("no TOML in line 3", "slots = 4\n\nservice\n", 19, 1, 16);
    rs_open("a field at the top", "tty = 1\n", 8, 1, 16);
    rs_open("a text with a fault, and generation 0", "slots = 0", 9, 0, 16);
    rs_open("generation 0", settings, sizeof settings - 1, 0, 16);
    rs_open("generation 2097153", settings, sizeof settings - 1, 2097153, 16);
    rs_open("slot 15", settings, sizeof settings - 1, 1, 15);
    rs_open("a last slot of 1024", settings, sizeof settings - 1, 1, 1021);
    rs_open("RS", settings, sizeof settings - 1, 7, 1020);
    rs_open("RS twice", "[[service", 9, 0, 0);
}

static void no_events(void) {
    struct ds_rs_event it;
    memset(&it, 0xff, sizeof it);
    report("all fields 0xff", it);
    report("a kind too many", event(7, 1));
    report("no label", event(DS_RS_UP, 1));
    report("a label with a space", of_label(DS_RS_UP, "di sk", 1));
    it = of_label(DS_RS_DOWN, "disk", 1), it.label_length = 65;
    report("a label of 65 bytes", it);
    report("a slot too many", of_instance(DS_RS_BEAT, 1, 1024, 0, 1));
    report("a generation too many", of_instance(DS_RS_DEATH, 2097152, 16, 1, 1));
}

static void services(void) {
    show(0);
    show(1);
    show(2);
    due();
    if (ds_call_line(&store, "subscribe 40 \"disk.*\" 15 first new", 34, &answer)) exit(1);
    report("up", of_label(DS_RS_UP, "disk", 10));
    show(0);
    due();
    may("disk", 7, 1020, DS_U32, "disk.size");
    may("disk, a label,", 7, 1020, DS_LABEL, "disk.size");
    may("disk, another name,", 7, 1020, DS_U32, "disk.mtu");
    may("disk, no name,", 7, 1020, DS_U32, "disk mtu");
    may("disk, kind 3,", 7, 1020, 3, "disk.size");
    may("an older instance", 6, 1020, DS_U32, "disk.size");
    may("an instance in slot 1024", 7, 1024, DS_U32, "disk.size");
    report("down of another", of_label(DS_RS_DOWN, "vfs", 10));
    report("a tick that is due", event(DS_RS_TICK, 15));
    report("no more at this tick", event(DS_RS_TICK, 15));
    report("a beat", of_instance(DS_RS_BEAT, 7, 1020, 0, 16));
    report("refresh", of_label(DS_RS_REFRESH, "disk", 16));
    report("a death of the older instance", of_instance(DS_RS_DEATH, 7, 1020, DS_RS_EXIT, 16));
    report("a death", of_instance(DS_RS_DEATH, 8, 1020, DS_RS_COMPLAINT, 17));
    show(0);
    due();
    report("its wait is over", event(DS_RS_TICK, 18));
    report("a death of no cause", of_instance(DS_RS_DEATH, 9, 1020, 0, 18));
    report("a death too many", of_instance(DS_RS_DEATH, 9, 1020, DS_RS_KILLED, 19));
    show(0);
    due();
    if (ds_rs_action(&store, 3, &action) != DS_NOTFOUND || ds_rs_action(&store, SIZE_MAX, &action) != DS_NOTFOUND) bad++;
    report("a tick before the last one", event(DS_RS_TICK, 18));
    report("up again", of_label(DS_RS_UP, "disk", 19));
    if (ds_call_line(&store, "retrieve disk label", 19, &answer)) exit(1);
    printf("the store's label: %u/%u; an action of this answer: %s\n", answer.value, answer.value_slot,
           ds_refusal_text(ds_rs_action(&store, 0, &action)));
}

/* Makes a request in RS's name, which RS alone may make, by each call that could. */
static void barred(void) {
    struct ds_request it = {.command = DS_PUBLISH, .slot = 2, .kinds = DS_LABEL, .epoch = 99, .value = 99, .value_slot = 99,
                            .overwrite = 1, .name_length = 4, .name = "disk"};
    struct ds_answer answers[2];
    size_t done;
    if (ds_call(&store, &it, NULL, 0, &answer)) exit(1);
    printf("a label by ds_call: %s\n", ds_refusal_text(answer.refusal));
    struct ds_request both[2] = {it, {.command = DS_SWEEP, .slot = 2, .value = 99, .name_length = 4, .name = "disk"}};
    if (ds_run(&store, both, 2, NULL, 0, answers, 2, &done)) exit(1);
    printf("by ds_run: %u done, %s, %s\n", (unsigned)done, ds_refusal_text(answers[0].refusal), ds_refusal_text(answers[1].refusal));
    if (ds_call_line(&store, "sweep 0/2 disk 9", 16, &answer)) exit(1);
    printf("by ds_call_line: %s\n", ds_refusal_text(answer.refusal));
}

/* Sends a line, and prints the text of its answer. */
static void line(const char *it) {
    char text[512];
    struct ds_given given;
    if (ds_call_line(&store, it, strlen(it), &answer) || ds_text(&store, 0, text, sizeof text, &given)) exit(1);
    bad += given.stop != DS_WHOLE || answer.pieces != 0;
    printf("%s: %s, count %u\n%.*s", it, ds_word_text(answer.word), (unsigned)answer.count, (int)given.length, text);
}

static void lines(void) {
    static const char tty[] = "service = [{label = \"tty\", class = \"character\", unit = 4}]";
    line("tick 1");
    line("settings service = []");
    rs_open("RS", tty, sizeof tty - 1, 1, 16);
    line("tick 1");
    line("settings service = []");
    line("service up tty 2");
    line("death 1/16 1 3");
    line("beat 1/16 3");
    printf("actions: %d\n", ds_rs_action(&store, 0, &action) == 0);
}

/* Prints which service may complain of which, and connect to which: by class, and by lists. vfs has no lists; mfs and disk have. */
static void dealings(void) {
    static const char some[] =
        "format = 2\nservice = [{label = \"vfs\", class = \"server\", limit = 0}, {label = \"disk\", class = \"block\", unit = 3, complains = [\"vfs\"], connects = []},"
        " {label = \"mfs\", class = \"server\", complains = [], connects = [\"disk\", \"nobody\"]}, {label = \"tty\", class = \"character\", unit = 4}]";
    static const char *const labels[] = {"vfs", "disk", "mfs", "tty", "nobody", "di sk", ""};
    static const char *const up[] = {"vfs", "disk", "mfs", "tty"};
    rs_open("RS with lists", some, sizeof some - 1, 1, 16);
    deals("nobody is up", 1, 16, "disk");
    for (size_t i = 0; i < 4; i++) {
        struct ds_rs_event it = of_label(DS_RS_UP, up[i], 1);
        if (ds_rs_event(&store, &it, &answer)) exit(1);
    }
    for (uint16_t i = 0; i < 4; i++)
        for (size_t j = 0; j < sizeof labels / sizeof *labels; j++) deals(up[i], i + 1u, (uint16_t)(16 + i), labels[j]);
    deals("slot 1024", 1, 1024, "disk");
    report("vfs dies", of_instance(DS_RS_DEATH, 1, 16, DS_RS_EXIT, 2));
    deals("the dead vfs", 1, 16, "disk");
    deals("of the dead", 2, 17, "vfs");
}

/* Tries `forget` and `startup` from C: an instance that was up for 10 ticks leaves no failures, and has 20 ticks to start. */
static void forgetting(void) {
    static const char one[] =
        "format = 2\nservice = [{label = \"disk\", class = \"block\", unit = 3, period = 5, limit = 1, forget = 10, startup = 20}]";
    rs_open("RS that forgets", one, sizeof one - 1, 1, 16);
    report("up", of_label(DS_RS_UP, "disk", 0));
    report("a death after 9 ticks", of_instance(DS_RS_DEATH, 1, 16, DS_RS_EXIT, 9));
    report("its wait is over", event(DS_RS_TICK, 10));
    show(0);
    report("a death after 10 ticks", of_instance(DS_RS_DEATH, 2, 16, DS_RS_EXIT, 20));
    show(0);
    report("its wait is over", event(DS_RS_TICK, 21));
    report("a ping", event(DS_RS_TICK, 50));
    report("not missed", event(DS_RS_TICK, 50));
    due();
    report("missed, after 30 ticks", event(DS_RS_TICK, 51));
    show(0);
}

/* Gives RS other settings while services run. Some are refused and change nothing; services stay by their labels, and others are new. The
 * second pair has the services in another order. */
static void rs_renew(const char *what, const char *text) {
    memset(&fault, 0xee, sizeof fault);
    uint32_t call = ds_rs_renew(&store, text, strlen(text), &fault);
    printf("%s: %s", what, ds_refusal_text(call));
    if (fault.cause != 0xeeeeeeee) printf(", %s of service %d, line %" PRIu64, ds_refusal_text(fault.cause), (int)fault.service, fault.line);
    puts("");
}

#define DISK "{label = \"disk\", class = \"block\", unit = 3, limit = 5, publishes = [\"disk.size\"]}"
#define VFS "{label = \"vfs\", class = \"server\"}"
#define NET "{label = \"net\", class = \"network\", unit = 0, limit = 5}"
#define TTY "{label = \"tty\", class = \"character\", unit = 4, limit = 9}"
#define MTU "{label = \"net\", class = \"network\", unit = 1, limit = 7, period = 50, publishes = [\"mtu\"]}"

static void renewals(void) {
    static const char all[] = "slots = 4\nservice = [" DISK ", " VFS ", " NET "]\n";
    rs_renew("before RS is open", all);
    rs_open("RS to be renewed", all, sizeof all - 1, 1, 17);
    report("up disk", of_label(DS_RS_UP, "disk", 1));
    report("up vfs", of_label(DS_RS_UP, "vfs", 1));
    report("up net", of_label(DS_RS_UP, "net", 1));
    report("disk dies", of_instance(DS_RS_DEATH, 1, 17, DS_RS_EXIT, 2));
    rs_renew("no TOML in line 2", "slots = 4\nservice\n");
    rs_renew("a second service without a class", "service = [" DISK ", {label = \"vfs\"}]");
    rs_renew("a slot fewer, and none of the services", "slots = 3");
    rs_renew("a last slot of 1024, and none of the services", "slots = 1008");
    rs_renew("without disk, which waits, and vfs", "slots = 4\nservice = [" NET "]");
    rs_renew("without vfs", "slots = 4\nservice = [" NET ", " DISK "]");
    printf("actions: %d\n", ds_rs_action(&store, 0, &action) == 0);
    show(0), show(1), show(2);
    report("down vfs", of_label(DS_RS_DOWN, "vfs", 2));
    rs_renew("without vfs, which is down", "slots = 5\nservice = [" MTU ", " TTY ", " DISK "]");
    printf("actions: %d\n", ds_rs_action(&store, 0, &action) == 0);
    show(0), show(1), show(2), show(3);
    due();
    may("net", 3, 19, DS_U32, "mtu");
    report("up vfs", of_label(DS_RS_UP, "vfs", 2));
    report("disk's wait is over", event(DS_RS_TICK, 3));
    report("up tty", of_label(DS_RS_UP, "tty", 3));
    report("net dies", of_instance(DS_RS_DEATH, 3, 19, DS_RS_KILLED, 4));
    rs_renew("the first ones, without vfs and tty", "slots = 5\nservice = [" DISK ", " NET "]");
    report("down tty", of_label(DS_RS_DOWN, "tty", 4));
    rs_renew("the first ones, without vfs", "slots = 5\nservice = [" DISK ", " NET "]");
    show(0), show(1), show(2);
    line("retrieve disk label");
    line("retrieve tty label");
}

/* New settings may leave out a service that was given up. */
static void renewal_of_one_given_up(void) {
    static const char two[] = "service = [{label = \"tty\", class = \"character\", unit = 4}, " VFS "]";
    rs_open("RS with one that is given up", two, sizeof two - 1, 1, 16);
    report("up tty", of_label(DS_RS_UP, "tty", 1));
    report("tty dies", of_instance(DS_RS_DEATH, 1, 16, DS_RS_EXIT, 2));
    rs_renew("without tty", "service = [" VFS "]");
    show(0), show(1);
    rs_renew("without any", "");
    show(0);
    rs_renew("with tty again", "service = [" TTY "]");
    show(0);
}

/* In a history with memory for n allocations, what is refused for memory is reported again: nothing has changed. */
static uint32_t again(uint32_t refusal) {
    if (refusal == DS_NOROOM) left = -1, waited++;
    return refusal == DS_NOROOM;
}

static void run(long n, uint64_t *wanted) {
    static const struct {
        uint32_t kind, generation, cause;
        uint64_t tick;
    } steps[] = {{DS_RS_UP, 0, 0, 1}, {DS_RS_BEAT, 1, 0, 2}, {DS_RS_TICK, 0, 0, 6}, {DS_RS_DEATH, 1, 4, 7}, {DS_RS_TICK, 0, 0, 8}, {DS_RS_DEATH, 2, 1, 9}};
    char text[512];
    struct ds_given given;
    int missed = 0; /* the store ran out of memory for an offer: from then on it may hold less */
    left = n;
    while (again(ds_open(&store, 1, 0, 256))) {}
    while (again(ds_rs_open(&store, settings, sizeof settings - 1, 1, 16, &fault))) {}
    for (size_t i = 0; i < sizeof steps / sizeof *steps; i++) {
        struct ds_rs_event it = of_label(steps[i].kind, "disk", steps[i].tick);
        it.generation = steps[i].generation, it.cause = steps[i].cause, it.slot = 16;
        do bad += ds_rs_event(&store, &it, &answer) != 0;
        while (again(answer.refusal));
        bad += answer.word != DS_ACTED;
        do bad += ds_text(&store, 0, text, sizeof text, &given) != 0;
        while (again(given.stop));
        uint64_t sum = answer.count * 1000 + given.length;
        for (size_t at = 0; ds_rs_action(&store, at, &action) == 0; at++) {
            if (again(action.refusal)) missed = 1;
            sum = sum * 31 + action.kind * 7 + action.generation;
        }
        if (n < 0) wanted[i] = sum;
        else bad += !missed && wanted[i] != sum;
    }
    left = -1;
    bad += ds_close(&store);
}

/* Reports an event until there is memory for it. */
static void insist(struct ds_rs_event it) {
    do bad += ds_rs_event(&store, &it, &answer) != 0;
    while (again(answer.refusal));
    bad += answer.word != DS_ACTED;
}

/* Gives RS other settings with memory for n allocations. A refused call changes nothing, and the next one changes everything. */
static void renew_with(long n) {
    static const char more[] = "slots = 4\nservice = [" TTY ", " DISK "]\n";
    uint32_t refusal;
    left = n;
    while (again(ds_open(&store, 1, 0, 256))) {}
    while (again(ds_rs_open(&store, settings, sizeof settings - 1, 1, 16, &fault))) {}
    insist(of_label(DS_RS_UP, "disk", 1));
    insist(of_instance(DS_RS_DEATH, 1, 16, DS_RS_KILLED, 2));
    do {
        refusal = ds_rs_renew(&store, more, sizeof more - 1, &fault);
        size_t disk = refusal ? 0 : 1;
        bad += refusal && refusal != DS_NOROOM;
        bad += ds_rs_service(&store, disk, &service) || service.state != DS_RS_ISWAITING || service.failures != 1;
        bad += service.limit != (refusal ? 1 : 5) || ds_rs_service(&store, 2, &service) != DS_NOTFOUND;
    } while (again(refusal));
    bad += ds_rs_service(&store, 0, &service) || service.state != DS_RS_ISDOWN || service.limit != 9;
    left = -1;
    bad += ds_close(&store);
}

int main(void) {
    uint64_t wanted[8];
    nothing();
    openings();
    no_events();
    services();
    barred();
    bad += ds_close(&store);
    if (ds_open(&store, 1, 0, 256)) return 1;
    lines();
    bad += ds_close(&store);
    if (ds_open(&store, 1, 0, 256)) return 1;
    dealings();
    bad += ds_close(&store);
    if (ds_open(&store, 1, 0, 256)) return 1;
    forgetting();
    bad += ds_close(&store);
    rs_renew("in a closed handle", settings);
    if (ds_open(&store, 1, 0, 256)) return 1;
    renewals();
    bad += ds_close(&store);
    if (ds_open(&store, 1, 0, 256)) return 1;
    renewal_of_one_given_up();
    bad += ds_close(&store);
    long before = asked;
    run(-1, wanted);
    before = asked - before;
    for (once = 0; once < 2; once++)
        for (long n = 0; n < before; n++) run(n, wanted);
    before = asked;
    renew_with(-1);
    before = asked - before;
    for (once = 0; once < 2; once++)
        for (long n = 0; n < before; n++) renew_with(n);
    printf("each refused: some waited %d; wrong %ld\n", waited > 0, bad);
    return bad != 0;
}
