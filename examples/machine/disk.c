/* disk [-r] IMAGE ..: a block driver of disk images. The blocks of the second image are numbered after those of the first. With -r it may
 * only read. */
#include "confine.h"
#include "driver.h"
#include <fcntl.h>
#include <stdlib.h>
#include <sys/stat.h>
#include <unistd.h>

enum { IMAGES = 2, SECTOR = 512, SECTORS = BLOCK / SECTOR, AT_ONCE = 4 /* sectors of a transfer */ };

static int image[IMAGES];
static uint64_t images, blocks;           /* blocks of each image */
static uint8_t buffer[SECTORS * SECTOR];  /* the controller's */

static bool open_image(const char *path, int flags) {
    struct stat about;
    if (images == IMAGES) return false;
    image[images] = open(path, flags | O_CLOEXEC);
    if (image[images] < 0 || fstat(image[images], &about)) return false;
    blocks = (uint64_t)about.st_size / BLOCK;
    images++;
    return blocks > 0;
}

/* Between the disk and the controller's buffer. */
static bool transfer(uint64_t place, bool writes) {
    int file = image[place / blocks];
    for (int sector = 0; sector < SECTORS; sector += AT_ONCE) {
        off_t from = (off_t)(place % blocks * BLOCK) + sector * SECTOR;
        uint8_t *at = buffer + sector * SECTOR;
        ssize_t done = writes ? pwrite(file, at, AT_ONCE * SECTOR, from) : pread(file, at, AT_ONCE * SECTOR, from);
        if (done != AT_ONCE * SECTOR) return false;
    }
    return true;
}

/* Between the controller's buffer and a frame, word by word, as a driver without DMA does. */
static void move(uint8_t *to, const uint8_t *from) {
    for (int at = 0; at < BLOCK; at += 8) {
        uint64_t word;
        memcpy(&word, from + at, sizeof word);
        __asm__ volatile("" : "+r"(word));
        memcpy(to + at, &word, sizeof word);
    }
}

static void serve(struct frame *frame) {
    struct head *head = &frame->head;
    bool writes = head->verb == WRITE;
    bool fits = head->place < images * blocks && (writes ? head->length == BLOCK : head->verb == READ && !head->length);
    if (writes && fits) move(buffer, frame->data);
    bool done = fits && transfer(head->place, writes);
    if (!writes && done) move(frame->data, buffer);
    head->verb = done ? DONE : FAILED;
    head->length = done && !writes ? BLOCK : 0;
}

int main(int count, char **words) {
    bool reads = count > 1 && !strcmp(words[1], "-r");
    for (int i = 1 + reads; i < count; i++) driver_must(open_image(words[i], reads ? O_RDONLY : O_RDWR));
    driver_must(images > 0);
    confine(blocks * BLOCK);
    driver_run(&(struct driving){.serve = serve, .device = -1});
}
