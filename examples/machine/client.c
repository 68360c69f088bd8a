/* client make BLOCKS SUMS IMAGE ..: makes images of a file of this many blocks, and its checksums.
 * client SOCKET read|write|both|check BLOCKS SECONDS WINDOW: reads the file through the file server of the dsrs at SOCKET, again and again;
 *     or writes and reads it; or reads each block and at once writes it; or has both copies of each block checked, once. Each block that
 *     is read is compared with what it has to be.
 * client SOCKET print LINES: prints numbered lines on the console, and prints a line again if the console's driver died with it. */
#include "asking.h"
#include "clock.h"
#include <stdio.h>
#include <stdlib.h>
#include <unistd.h>

enum { LINE = 32, PAUSE = 2000 /* microseconds after a fault */ };

static struct asking files;
static uint64_t blocks;

/* What a block has to hold, in each version of the file. It begins with the version. */
static void fill(uint64_t block, uint64_t version, uint8_t *data) {
    uint64_t word = (block + 1) * 0xD1342543DE82EF95u ^ (version + 1) * 0x2545F4914F6CDD1Du;
    memcpy(data, &version, sizeof version);
    for (int at = sizeof version; at < BLOCK; at += 8) {
        word ^= word << 13, word ^= word >> 7, word ^= word << 17;
        memcpy(data + at, &word, sizeof word);
    }
}

static void look_at(const struct frame *answer, const struct head *asked, uint64_t version) {
    uint8_t right[BLOCK];
    files.refused += answer->head.verb != DONE;
    if (asked->verb != READ || answer->head.verb != DONE) return;
    fill(asked->place, version, right);
    files.wrong += answer->head.length != BLOCK || memcmp(answer->data, right, BLOCK);
}

static bool ask(uint64_t block, enum verb verb, uint64_t version) {
    uint8_t data[BLOCK];
    if (!asking_has_room(&files)) return false;
    if (verb == WRITE) fill(block, version, data);
    return asking_send(&files, block, verb, data, verb == WRITE ? BLOCK : 0);
}

/* Asks one thing after the other of every block, in order, until a time. It reads one version, and writes the next one. Returns whether it
 * asked all. */
static bool pass(const enum verb *verbs, unsigned count, uint64_t version, uint64_t until) {
    struct frame answer;
    for (uint64_t at = 0;;) {
        while (at < blocks * count && clock_now() < until && ask(at / count, verbs[at % count], version + 1)) at++;
        if (asking_is_idle(&files)) return at == blocks * count;
        struct head asked = asking_take(&files, &answer);
        look_at(&answer, &asked, version);
    }
}

/* The version of the file, by its first block. */
static uint64_t version_now(void) {
    struct frame answer;
    uint64_t version;
    asking_send(&files, 0, READ, NULL, 0);
    asking_take(&files, &answer);
    memcpy(&version, answer.data, sizeof version);
    return version;
}

static void work(const char *what, uint64_t until) {
    static const enum verb reads[] = {READ}, writes[] = {WRITE}, both[] = {READ, WRITE}, checks[] = {CHECK};
    if (!strcmp(what, "check")) {
        pass(checks, 1, 0, UINT64_MAX);
        return;
    }
    uint64_t version = version_now();
    if (!strcmp(what, "read")) while (pass(reads, 1, version, until)) {}
    for (; !strcmp(what, "write") && clock_now() < until; version++) {
        pass(writes, 1, version, UINT64_MAX);
        pass(reads, 1, version + 1, UINT64_MAX);
    }
    for (; !strcmp(what, "both") && clock_now() < until; version++) pass(both, 2, version, UINT64_MAX);
}

static int make(int count, char **words) {
    uint8_t data[BLOCK];
    for (int i = 3; i < count; i++) {
        FILE *file = fopen(words[i], "w");
        for (uint64_t block = 0; file && block < blocks; block++) {
            fill(block, 0, data);
            uint64_t sum = sum_of(block, data, BLOCK);
            size_t put = i == 3 ? fwrite(&sum, sizeof sum, 1, file) : fwrite(data, BLOCK, 1, file);
            if (!put) return 1;
        }
        if (!file || fclose(file)) return 1;
    }
    return 0;
}

static int print(unsigned long lines) {
    struct frame answer;
    char line[LINE];
    for (unsigned long number = 0; number < lines; number++) {
        uint32_t length = (uint32_t)snprintf(line, sizeof line, "line %lu\n", number);
        do {
            asking_send(&files, 0, PUT, (uint8_t *)line, length);
            asking_take(&files, &answer);
            files.refused += answer.head.verb != DONE;
            if (answer.head.verb != DONE) usleep(PAUSE);
        } while (answer.head.verb != DONE);
    }
    return asking_report(&files);
}

int main(int count, char **words) {
    if (count < 4) return 2;
    blocks = strtoull(words[!strcmp(words[1], "make") ? 2 : 3], NULL, 10);
    if (!strcmp(words[1], "make")) return make(count, words);
    asking_open(&files, words[1], "fs", count > 5 ? (unsigned)atoi(words[5]) : 1);
    if (!strcmp(words[2], "print")) return print(blocks);
    work(words[2], clock_now() + (uint64_t)(count > 4 ? atof(words[4]) * 1e9 : 0));
    return asking_report(&files);
}
