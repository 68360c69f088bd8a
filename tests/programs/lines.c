/* Calls a store with lines of a script. A fault is reported with its place. A text arrives whole however small the buffer is, and
 * however often memory runs out. Link with -Wl,--wrap=malloc,--wrap=realloc. */
#include "ds.h"
#include "growths.h"
#include <stdio.h>
#include <stdlib.h>
#include <string.h>

static struct ds_handle store = DS_CLOSED;
static struct ds_answer answer;
static struct ds_given given;
static char text[4096];
static size_t length; /* of the text */
static long waited, bad;

/* Fetches the whole text of the last answer, at most `most` bytes at a time, however often memory runs out on the way. */
static void fetch(size_t most) {
    char room[sizeof text];
    length = 0;
    do {
        memset(room, '.', sizeof room), memset(&given, 0xee, sizeof given);
        if (ds_text(&store, length, room, most, &given) || given.length > most) exit(2);
        for (size_t i = given.length; i < sizeof room; i++) bad += room[i] != '.';
        if (given.stop == DS_WANTING) waited++, left = -1, bad += given.count || given.length;
        memcpy(text + length, room, given.length), length += given.length;
    } while (given.stop == DS_WANTING || (given.stop == DS_TOOSMALL && given.length));
    bad += given.stop != DS_WHOLE || given.count != length;
}

static void say(const char *what, const char *line, size_t bytes) {
    memset(&answer, 0xee, sizeof answer);
    uint32_t call = ds_call_line(&store, line, bytes, &answer);
    printf("%s: call %u, word %u, refusal %u, count %u\n", what, call, answer.word, answer.refusal, (unsigned)answer.count);
    fetch(sizeof text);
    printf("%.*s", (int)length, text);
}

static void line(const char *it) { say(it, it, strlen(it)); }

static void misuse(void) {
    char long_line[4097];
    memset(&answer, 0xee, sizeof answer), memset(&given, 0xee, sizeof given);
    uint32_t call = ds_call_line(&store, "all", 3, &answer);
    printf("a closed handle: call %u, the answer's place untouched %d\n", call, answer.word == 0xeeeeeeee);
    call = ds_text(&store, 0, text, sizeof text, &given);
    printf("no text of it: call %u, the place untouched %d\n", call, given.stop == 0xeeeeeeee && !text[0]);
    if (ds_open(&store, 1, 0, 256)) exit(1);
    fetch(sizeof text);
    printf("no text before the first line: length %u\n", (unsigned)length);
    line("publish 0/2 new eth0 label 3.0 = 3/16");
    say("with its newline", "retrieve eth0 label\n", 20);
    say("no line", NULL, 0);
    say("an empty line", "\n", 1);
    say("two lines", "retrieve eth0 label\nall\n", 24);
    say("a newline too many", "retrieve eth0 label\n\n", 21);
    line("retrieve eth0 lable");
    line("retrieve eth0 label ");
    say("a byte that is none of a line", "al\0l", 4);
    line("map \"eth.*\" 1");
    line("ring 5");
    line("beat 3/16 8");
    memset(long_line, 'x', sizeof long_line), memcpy(long_line, "settings ", 9);
    say("a line of 4096 bytes", long_line, 4096);
    say("a line of 4097 bytes", long_line, 4097);
    line("offer ! tty 1");
    line("subscribe 40 \"eth.*\" 15 first new");
    line("publish 3/16 new eth0.s str 3.0 = \"a \\\"value\\\"\"");
    line("publish 3/16 new eth0.s str 3.0 = \"another\"");
    line("delete 3/16 eth0.s str 3.1");
    line("check 40 8");
    line("show");
    line("all");
}

/* Checks that the text is the same however small the buffer is. */
static void small(void) {
    static char whole[sizeof text];
    if (ds_call_line(&store, "all", 3, &answer)) exit(1);
    fetch(sizeof text);
    size_t bytes = length;
    memcpy(whole, text, bytes);
    for (size_t most = 1; most < bytes + 2; most++) {
        fetch(most);
        bad += length != bytes || memcmp(whole, text, bytes) != 0;
    }
    if (ds_text(&store, bytes + 7, text, sizeof text, &given)) exit(1);
    printf("behind its end: count %u, length %u, stop %u\n", (unsigned)given.count, (unsigned)given.length, given.stop);
    if (ds_text(&store, 3, NULL, 0, &given)) exit(1);
    printf("no room: count %u, length %u, stop %u\n", (unsigned)given.count, (unsigned)given.length, given.stop);
    char room[128];
    struct ds_given items;
    if (ds_items(&store, 1, room, sizeof room, &items)) exit(1);
    printf("its second item: count %u, %.*s", (unsigned)items.count, (int)items.length, room);
}

static const char *const script[] = {
    "publish 0/2 new eth0 label 3.0 = 3/16",
    "subscribe 40 \"eth.*\" 15 first new",
    "publish 3/16 new eth0.mac mem 3.0 = 00a0c9",
    "offer eth1.s str eth1 2.0 = \"a string of another store\"",
    "retrieve eth0.mac mem",
    "nameof 3/16",
    "check 40 8",
    "snapshot \"eth.*\" 15",
    "since * 1 0 8",
    "page * - 8",
    "delete 3/16 eth0.mac mem 3.1",
    "sweep 0/2 eth1 2",
    "retrieve eth1.s str",
    "show",
    "all",
};
enum { LINES = sizeof script / sizeof *script };

/* Runs the script with memory for n allocations. Each answer is that of a run with enough memory, or reports that memory ran out; then
 * the line is sent again, and is answered. */
static void run(long n, char (*wanted)[512], size_t *lengths) {
    left = n;
    uint32_t open = ds_open(&store, 1, 0, 256);
    if (open == DS_NOROOM) left = -1, waited++, open = ds_open(&store, 1, 0, 256);
    bad += open != 0;
    for (int i = 0; i < LINES; i++) {
        if (ds_call_line(&store, script[i], strlen(script[i]), &answer)) exit(1);
        fetch(sizeof text);
        if (answer.refusal == DS_NOROOM) {
            const char *says = answer.word == DS_REFUSED || answer.word == DS_STOPPED ? "refused noroom\n" : "";
            bad += length != strlen(says) || memcmp(text, says, length) != 0;
            left = -1, waited++, i--;
            continue;
        }
        if (n < 0) lengths[i] = length, memcpy(wanted[i], text, length);
        else bad += lengths[i] != length || memcmp(wanted[i], text, length) != 0;
    }
    bad += ds_close(&store);
    left = -1;
}

int main(void) {
    static char wanted[LINES][512];
    size_t lengths[LINES];
    misuse();
    small();
    bad += ds_close(&store);
    long before = asked;
    run(-1, wanted, lengths);
    before = asked - before;
    for (int i = 0; i < LINES; i++) printf("%.*s", (int)lengths[i], wanted[i]);
    for (once = 0; once < 2; once++)
        for (long n = 0; n < before; n++) run(n, wanted, lengths);
    printf("each refused: some waited %d; wrong %ld\n", waited > 0, bad);
    return bad != 0;
}
