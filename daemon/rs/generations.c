/* The next generation. See generations.h. */
#include "generations.h"
#include <errno.h>
#include <fcntl.h>
#include <stdio.h>
#include <string.h>
#include <sys/file.h>
#include <sys/stat.h>
#include <unistd.h>

enum { LINE = 11, MOST = 2097152 /* the generation that no instance gets any more */ };

/* The line always has the same length, and is written in place. */
static bool write_number(struct generations *generations, uint32_t next) {
    char line[LINE + 1];
    snprintf(line, sizeof line, "%010u\n", next);
    errno = ENOSPC; /* in case of a short write */
    if (pwrite(generations->file, line, LINE, 0) != LINE || fdatasync(generations->file)) return false;
    generations->kept = next;
    return true;
}

/* Returns 1 for an empty file; 0, with errno, if the file can't be read or holds another text. */
static uint32_t read_number(int file) {
    char line[LINE + 2] = "";
    unsigned next = 0;
    ssize_t length = pread(file, line, LINE + 1, 0);
    if (length < 0) return 0;
    if (length == 0) return 1;
    errno = EINVAL;
    bool is_number = length == LINE && strspn(line, "0123456789") == LINE - 1 && sscanf(line, "%u\n", &next) == 1;
    return is_number && next <= MOST ? next : 0;
}

/* Opens the file for this dsrs alone. Returns -1, with errno: EBUSY if another dsrs has the file. */
static int open_alone(const char *path) {
    int file = open(path, O_RDWR | O_CREAT | O_CLOEXEC, 0600);
    if (file < 0 || !flock(file, LOCK_EX | LOCK_NB)) return file;
    if (errno == EWOULDBLOCK) errno = EBUSY;
    int error = errno;
    close(file);
    errno = error;
    return -1;
}

/* Makes the file anew if somebody removed its name. Returns false, with errno, if that fails. */
static bool ensure_file(struct generations *generations) {
    struct stat it;
    if (fstat(generations->file, &it)) return false;
    if (it.st_nlink) return true;
    int file = open_alone(generations->path);
    if (file < 0) return false;
    close(generations->file);
    generations->file = file;
    return true;
}

uint32_t generations_open(struct generations *generations, const char *path) {
    *generations = (struct generations){.path = path, .file = open_alone(path)};
    return generations->file < 0 ? 0 : read_number(generations->file);
}

bool generations_write(struct generations *generations, uint64_t next) {
    return ensure_file(generations) && write_number(generations, next < MOST ? (uint32_t)next : MOST);
}

void generations_close(struct generations *generations, uint32_t next) {
    if (generations->file < 0) return;
    if (next && next < generations->kept) generations_write(generations, next);
    close(generations->file);
    generations->file = -1;
}
