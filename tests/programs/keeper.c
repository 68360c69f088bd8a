/* Plays the processes of RS's services by calls alone: leftovers, a generation that isn't written, a fork that fails, a death, a number that
 * comes again, a grace period, other settings, and memory that runs out. Link with -Wl,--wrap=malloc,--wrap=realloc. */
#include "ds.h"
#include "growths.h"
#include <inttypes.h>
#include <stdio.h>
#include <stdlib.h>
#include <string.h>

static const char settings[] =
    "slots = 4\n"
    "[[service]]\n"
    "label = \"disk\"\nclass = \"block\"\nunit = 3\nperiod = 50\nlimit = 100\n"
    "[[service]]\n"
    "label = \"vfs\"\nclass = \"server\"\n";

/* The services of these settings have other numbers, and tty is new. */
static const char others[] =
    "slots = 4\n"
    "[[service]]\n"
    "label = \"vfs\"\nclass = \"server\"\n"
    "[[service]]\n"
    "label = \"tty\"\nclass = \"character\"\nunit = 4\n"
    "[[service]]\n"
    "label = \"disk\"\nclass = \"block\"\nunit = 3\nperiod = 50\nlimit = 100\n";

enum { DISK, VFS };
enum { TTY = 1, LATER_DISK };
static const char *const kinds[] = {"wait", "clear", "fork", "report", "terminate", "kill", "scan", "reap"};

static struct ds_handle store = DS_CLOSED;
static struct ds_answer answer;
static struct ds_settings_fault fault;
static long bad;

static void say(const char *what, uint32_t word) { printf("%s: %s\n", what, word ? ds_refusal_text(word) : "done"); }

static void note(const char *what, size_t service, uint32_t kind, uint64_t value) { say(what, ds_keeper_note(&store, service, kind, value)); }

/* Prints what is to be done at a time. */
static void task(uint64_t now) {
    struct ds_keeper_task it;
    memset(&it, 0xee, sizeof it);
    uint32_t word = ds_keeper_task(&store, now, &it);
    if (word) {
        bad += it.kind != 0xeeeeeeee;
        say("a task", word);
        return;
    }
    printf("at %" PRIu64 ": %s", now, kinds[it.kind]);
    if (it.kind != DS_KEEPER_WAIT) printf(" %" PRIu64, it.service);
    if (it.kind == DS_KEEPER_FORK || it.kind == DS_KEEPER_REPORT) printf(" %" PRIu64 "/%u", it.generation, it.slot);
    else bad += it.generation != 0 || it.slot != 0;
    if (it.kind >= DS_KEEPER_TERMINATE) printf(" %" PRIu64, it.leader);
    else bad += it.leader != 0;
    puts("");
}

static void due(uint64_t now) {
    uint64_t at = 77;
    uint32_t word = ds_keeper_due(&store, now, &at);
    if (word) printf("due: %s\n", ds_refusal_text(word)), bad += at != 77;
    else if (at == UINT64_MAX) printf("due after %" PRIu64 ": never\n", now);
    else printf("due after %" PRIu64 ": %" PRIu64 "\n", now, at);
}

static void to_write(void) {
    uint64_t generation = 77;
    uint32_t word = ds_keeper_to_write(&store, &generation);
    if (word) printf("to write: %s\n", ds_refusal_text(word)), bad += generation != 77;
    else printf("to write: %" PRIu64 "\n", generation);
}

static void answered(const char *what, uint32_t word) {
    if (word) printf("%s: %s\n", what, ds_refusal_text(word)), bad += answer.word != 0xeeeeeeee;
    else printf("%s: %s%s%s\n", what, ds_word_text(answer.word), answer.refusal ? " " : "", ds_refusal_text(answer.refusal));
}

static struct ds_rs_event event_of(uint32_t kind, const char *label, uint64_t tick) {
    struct ds_rs_event it = {.kind = kind, .tick = tick};
    it.label_length = (uint8_t)strlen(label);
    memcpy(it.label, label, strlen(label));
    return it;
}

static void event(const char *what, uint32_t kind, const char *label, uint64_t tick, uint64_t deadline) {
    struct ds_rs_event it = event_of(kind, label, tick);
    memset(&answer, 0xee, sizeof answer);
    answered(what, ds_keeper_event(&store, &it, deadline, &answer));
}

static void report(const char *what, size_t service, uint32_t cause, uint64_t tick, uint64_t now) {
    memset(&answer, 0xee, sizeof answer);
    answered(what, ds_keeper_report(&store, service, cause, tick, now, &answer));
}

static void vouch(const char *what, size_t service, uint64_t tick) { say(what, ds_keeper_vouch(&store, service, tick)); }

static uint32_t rs_open(void) { return ds_rs_open(&store, settings, sizeof settings - 1, 1, 16, &fault); }

/* Every call without keepers. */
static void none_open(const char *what) {
    puts(what);
    event("an event", DS_RS_UP, "disk", 1, 0);
    report("a report", DISK, DS_RS_EXIT, 1, 0);
    vouch("a heartbeat", DISK, 1);
    note("a note", DISK, DS_KEEPER_CHANGED, 0);
    task(0);
    due(0);
    to_write();
    say("written", ds_keeper_written(&store, 65));
}

static void openings(void) {
    none_open("-- a closed handle");
    say("open", ds_keeper_open(&store));
    if (ds_open(&store, 1, 0, 256)) exit(1);
    none_open("-- without RS");
    say("open", ds_keeper_open(&store));
    if (rs_open()) exit(1);
    none_open("-- without keepers");
    say("open", ds_keeper_open(&store));
    say("open again", ds_keeper_open(&store));
}

static void line(const char *text) {
    memset(&answer, 0xee, sizeof answer);
    answered(text, ds_call_line(&store, text, strlen(text), &answer));
}

/* Calls by which RS would go without the processes. */
static void barred(void) {
    puts("-- barred");
    struct ds_rs_event up = event_of(DS_RS_UP, "disk", 1);
    memset(&answer, 0xee, sizeof answer);
    answered("ds_rs_event", ds_rs_event(&store, &up, &answer));
    line("service up disk 1");
    line("tick 1");
    line("beat 1/16 1");
    line("death 1/16 1 1");
    line("settings service = []");
    line("retrieve disk label");
    line("retrieve disk lable");
    line("publish 0/2 new disk label 1.0 = 1/16");
}

static void renew(const char *what, const char *text) {
    memset(&fault, 0xee, sizeof fault);
    uint32_t word = ds_rs_renew(&store, text, strlen(text), &fault);
    printf("%s: %s", what, word ? ds_refusal_text(word) : "done");
    if (fault.cause != 0xeeeeeeee) {
        printf(", %s of service %d, line %" PRIu64, ds_refusal_text(fault.cause), (int)fault.service, fault.line);
    }
    puts("");
}

static void before_a_scan(void) {
    puts("-- other settings before a scan");
    renew("no TOML in line 2", "slots = 4\nservice\n");
    renew("a slot fewer, without vfs", "slots = 3\nservice = [{label = \"disk\", class = \"block\", unit = 3}]");
    renew("without vfs", "slots = 4\nservice = [{label = \"disk\", class = \"block\", unit = 3}]");
    renew("without any", "");
    renew("the same ones", settings);
}

static void leftovers(void) {
    puts("-- leftovers");
    task(0);
    note("disk: dying ones", DISK, DS_KEEPER_SCANNED, DS_KEEPER_DYING);
    task(0);
    note("vfs: none", VFS, DS_KEEPER_CLEARED, 0);
    note("vfs: none, again", VFS, DS_KEEPER_CLEARED, 0);
    task(0);
    due(0);
    note("disk: a child ended", DISK, DS_KEEPER_CHANGED, 0);
    task(0);
    note("disk: none", DISK, DS_KEEPER_CLEARED, 0);
    task(0);
}

static void unwritten(void) {
    puts("-- an unwritten generation");
    to_write();
    event("up", DS_RS_UP, "disk", 1, 0);
    event("up of nobody", DS_RS_UP, "tty", 1, 0);
    event("no event", 7, "", 1, 0);
    task(0);
    say("written", ds_keeper_written(&store, 65));
    to_write();
    event("up", DS_RS_UP, "disk", 1, 0);
    event("up again", DS_RS_UP, "disk", 1, 0);
    task(0);
}

static void fork_fails(void) {
    puts("-- a fork that fails");
    note("no process", DISK, DS_KEEPER_FAILED, 10);
    task(109);
    due(10);
    vouch("a heartbeat in its place", DISK, 2);
    vouch("before that tick", DISK, 1);
    vouch("of vfs", VFS, 2);
    vouch("of nobody", 2, 2);
    task(110);
    note("begun", DISK, DS_KEEPER_BEGUN, 700);
    note("begun twice", DISK, DS_KEEPER_BEGUN, 701);
    note("of nobody", 2, DS_KEEPER_CHANGED, 0);
    note("a kind too many", DISK, 10, 0);
    note("what no scan finds", DISK, DS_KEEPER_SCANNED, 3);
    vouch("a heartbeat of one that runs", DISK, 2);
    task(110);
}

static void death(void) {
    puts("-- a death");
    report("of a living one", DISK, DS_RS_EXIT, 4, 120);
    report("of one that is down", VFS, DS_RS_EXIT, 4, 120);
    report("of nobody", 2, DS_RS_EXIT, 4, 120);
    note("exited", DISK, DS_KEEPER_EXITED, 0);
    task(120);
    note("reaped too early", DISK, DS_KEEPER_REAPED, 0);
    report("no cause", DISK, 0, 4, 120);
    report("the death", DISK, DS_RS_EXIT, 4, 120);
    report("the same death", DISK, DS_RS_EXIT, 4, 120);
    task(120);
    note("killed", DISK, DS_KEEPER_KILLED, 0);
    task(120);
    note("found nothing", DISK, DS_KEEPER_SCANNED, DS_KEEPER_NOTHING);
    task(120);
    note("reaped", DISK, DS_KEEPER_REAPED, 0);
    task(120);
    event("its wait is over", DS_RS_TICK, "", 5, 0);
    task(120);
}

static void comes_again(void) {
    puts("-- a number that comes again, after a grace period");
    note("begun, the number is free again", DISK, DS_KEEPER_BEGUN, 700);
    event("refresh", DS_RS_REFRESH, "disk", 6, 2200);
    task(200);
    note("terminated", DISK, DS_KEEPER_TERMINATED, 0);
    task(200);
    due(200);
    vouch("of the one that waits", DISK, 7);
    note("begun beside it", DISK, DS_KEEPER_BEGUN, 701);
    note("exited", DISK, DS_KEEPER_EXITED, 0);
    task(201);
    note("living ones", DISK, DS_KEEPER_SCANNED, DS_KEEPER_LIVING);
    task(2199);
    note("a later deadline is none", DISK, DS_KEEPER_SHORTENED, 2300);
    note("an earlier one", DISK, DS_KEEPER_SHORTENED, 1000);
    due(202);
    task(999);
    task(1000);
    note("killed", DISK, DS_KEEPER_KILLED, 0);
    task(1000);
    note("dying ones", DISK, DS_KEEPER_SCANNED, DS_KEEPER_DYING);
    task(1000);
    note("a child ended", DISK, DS_KEEPER_CHANGED, 0);
    task(1001);
    note("nothing", DISK, DS_KEEPER_SCANNED, DS_KEEPER_NOTHING);
    task(1001);
    note("reaped", DISK, DS_KEEPER_REAPED, 0);
    task(1001);
    note("begun, with that number", DISK, DS_KEEPER_BEGUN, 700);
    task(1001);
}

static void other_settings(void) {
    puts("-- other settings while disk runs");
    renew("vfs first, and tty new", others);
    task(1001);
    note("tty: none", TTY, DS_KEEPER_CLEARED, 0);
    task(1001);
    note("disk at its former number", DISK, DS_KEEPER_EXITED, 0);
    event("up tty", DS_RS_UP, "tty", 8, 0);
    task(1001);
    note("begun", TTY, DS_KEEPER_BEGUN, 800);
    renew("without tty, which is up", settings);
    event("down tty", DS_RS_DOWN, "tty", 8, 1500);
    renew("without tty, which ends", settings);
    renew("without tty, and disk, which is up", "slots = 4\nservice = [{label = \"vfs\", class = \"server\"}]");
    task(1001);
    note("terminated", TTY, DS_KEEPER_TERMINATED, 0);
    due(1001);
    note("exited", TTY, DS_KEEPER_EXITED, 0);
    task(1001);
    note("found nothing", TTY, DS_KEEPER_SCANNED, DS_KEEPER_NOTHING);
    task(1001);
    renew("without tty, which isn't reaped", settings);
    note("reaped", TTY, DS_KEEPER_REAPED, 0);
    renew("without tty", settings);
    task(1001);
    note("disk, begun twice", DISK, DS_KEEPER_BEGUN, 701);
    note("of nobody", LATER_DISK, DS_KEEPER_CHANGED, 0);
}

/* Starts until the file's generation is reached: 5 to 64. */
static void last_generation(void) {
    puts("-- the last generation of the file");
    struct ds_rs_event refresh = event_of(DS_RS_REFRESH, "disk", 8);
    long starts = 0;
    while (!ds_keeper_event(&store, &refresh, 0, &answer) && answer.word == DS_ACTED) starts++;
    printf("%ld starts, then %s\n", starts, ds_refusal_text(answer.refusal));
    to_write();
    event("down doesn't wait", DS_RS_DOWN, "disk", 8, 0);
    event("nor does a tick", DS_RS_TICK, "", 8, 0);
    say("an earlier one", ds_keeper_written(&store, 64));
    say("written", ds_keeper_written(&store, 129));
    event("up", DS_RS_UP, "disk", 9, 0);
    uint32_t next = 0;
    if (ds_rs_next(&store, &next)) exit(1);
    printf("RS's next: %u\n", next);
    say("close", ds_close(&store));
}

/* Refuses each growth in ds_keeper_open and in two events, alone and with all after it. Returns how many there are. */
static long refused_growths(long which) {
    left = -1, asked = 0;
    if (ds_open(&store, 1, 0, 256) || rs_open()) exit(1);
    struct ds_rs_event up = event_of(DS_RS_UP, "disk", 1);
    asked = 0, left = which;
    uint32_t word = ds_keeper_open(&store);
    bad += word != 0 && word != DS_NOROOM;
    if (word) {
        left = -1;
        struct ds_keeper_task none;
        bad += ds_keeper_task(&store, 0, &none) != DS_NOTFOUND || ds_keeper_open(&store) != 0;
        left = 0;
    }
    bad += ds_keeper_written(&store, 65) != 0 || ds_keeper_note(&store, DISK, DS_KEEPER_CLEARED, 0) != 0;
    bad += ds_keeper_note(&store, VFS, DS_KEEPER_CLEARED, 0) != 0;
    memset(&answer, 0, sizeof answer);
    if (ds_keeper_event(&store, &up, 0, &answer)) exit(1);
    struct ds_keeper_task it;
    if (ds_keeper_task(&store, 0, &it)) exit(1);
    int started = answer.word == DS_ACTED; /* the label follows RS, or nothing changed */
    bad += started != (it.kind == DS_KEEPER_FORK) || (!started && answer.refusal != DS_NOROOM);
    long growths = asked;
    left = -1;
    if (ds_close(&store)) exit(1);
    return growths;
}

/* Refuses each growth in ds_rs_renew while disk runs, alone and with all after it. Returns how many there are. */
static long refused_renewals(long which) {
    struct ds_rs_event up = event_of(DS_RS_UP, "disk", 1);
    struct ds_rs_service service;
    struct ds_keeper_task it;
    left = -1;
    if (ds_open(&store, 1, 0, 256) || rs_open() || ds_keeper_open(&store) || ds_keeper_written(&store, 65)) exit(1);
    if (ds_keeper_note(&store, DISK, DS_KEEPER_CLEARED, 0) || ds_keeper_note(&store, VFS, DS_KEEPER_CLEARED, 0)) exit(1);
    if (ds_keeper_event(&store, &up, 0, &answer) || ds_keeper_note(&store, DISK, DS_KEEPER_BEGUN, 700)) exit(1);
    asked = 0, left = which;
    uint32_t word = ds_rs_renew(&store, others, sizeof others - 1, &fault);
    long growths = asked;
    left = -1;
    size_t disk = word ? DISK : LATER_DISK; /* RS and the keepers have the new numbers, or both the earlier ones */
    bad += word != 0 && word != DS_NOROOM;
    if (ds_rs_service(&store, disk, &service) || ds_keeper_task(&store, 0, &it)) exit(1);
    bad += service.state != DS_RS_ISUP || it.kind != (word ? DS_KEEPER_WAIT : DS_KEEPER_CLEAR) || it.service != (word ? 0 : TTY);
    bad += ds_keeper_note(&store, disk, DS_KEEPER_EXITED, 0) != 0;
    if (word) bad += ds_rs_renew(&store, others, sizeof others - 1, &fault) != 0;
    if (ds_close(&store)) exit(1);
    return growths;
}

/* Refuses each of the growths of a call, alone and with all after it. */
static void each(const char *what, long call(long)) {
    once = 0;
    long growths = call(-1);
    for (once = 0; once < 2; once++)
        for (long which = 0; which < growths; which++) call(which);
    printf("%s: %d\n", what, growths > 1);
}

static void out_of_memory(void) {
    puts("-- memory that runs out");
    each("growths are refused", refused_growths);
    each("growths of other settings are refused", refused_renewals);
}

int main(void) {
    openings();
    barred();
    before_a_scan();
    leftovers();
    unwritten();
    fork_fails();
    death();
    comes_again();
    other_settings();
    last_generation();
    out_of_memory();
    printf("bad: %ld\n", bad);
    return 0;
}
