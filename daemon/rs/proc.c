/* The kernel's reports on processes. See proc.h. */
#include "proc.h"
#include <dirent.h>
#include <fcntl.h>
#include <stdio.h>
#include <stdlib.h>
#include <string.h>
#include <unistd.h>

enum {
    PIECE = 1 << 12,
    MOST = 1 << 22 /* bytes that are read of one file */
};

bool proc_read(const char *path, struct text *text) {
    int file = open(path, O_RDONLY | O_CLOEXEC);
    ssize_t length = -1;
    if (file < 0) return false;
    while (text->length < MOST && text_room(text, PIECE)) {
        length = read(file, text->bytes + text->length, PIECE);
        if (length <= 0) break;
        text->length += (size_t)length;
    }
    close(file);
    return length == 0 && text_put(text, "", 1);
}

/* The name of a process is in parentheses and may have any bytes: the fields after it begin past the last `)`. */
bool proc_look(pid_t pid, struct proc_seen *seen) {
    char path[32], line[512];
    snprintf(path, sizeof path, "/proc/%d/stat", pid);
    int file = open(path, O_RDONLY | O_CLOEXEC);
    if (file < 0) return false;
    ssize_t length = read(file, line, sizeof line - 1);
    close(file);
    if (length <= 0) return false;
    line[length] = '\0';
    const char *rest = strrchr(line, ')');
    unsigned long memory = 0;
    const char *format = " %c %d %d %d %*d %*d %*u %*u %*u %*u %*u %*u %*u %*d %*d %*d %*d %*d %*d %*u %lu";
    int read_parts = rest ? sscanf(rest + 1, format, &seen->state, &seen->parent, &seen->group, &seen->session, &memory) : 0;
    seen->has_memory = memory;
    return read_parts == 5;
}

/* ---- children ---- */

/* Finds the children of dsrs among all processes, if the kernel lists no children. */
static bool find_children(struct text *numbers) {
    DIR *folder = opendir("/proc");
    bool put = folder;
    struct proc_seen seen;
    for (struct dirent *entry; put && (entry = readdir(folder));) {
        pid_t pid = atoi(entry->d_name);
        if (pid > 0 && proc_look(pid, &seen) && seen.parent == getpid()) put = text_put(numbers, &pid, sizeof pid);
    }
    if (folder) closedir(folder);
    return put;
}

/* Processes become children of the first thread. Nothing leaves the list while it is read, since dsrs alone reaps them. */
bool proc_children(struct text *numbers) {
    char path[64];
    struct text listed = {0};
    snprintf(path, sizeof path, "/proc/self/task/%d/children", getpid());
    if (access(path, R_OK)) return find_children(numbers);
    bool put = proc_read(path, &listed);
    char *end = listed.bytes;
    for (pid_t pid; put && (pid = (pid_t)strtol(end, &end, 10)) > 0;) put = text_put(numbers, &pid, sizeof pid);
    text_free(&listed);
    return put;
}

bool proc_next(const struct text *numbers, size_t *at, pid_t *pid) {
    if (*at >= numbers->length) return false;
    memcpy(pid, numbers->bytes + *at, sizeof *pid);
    *at += sizeof *pid;
    return true;
}

/* ---- whose a process is ---- */

bool proc_endpoint(pid_t pid, const char *endpoints, uint32_t *generation, uint16_t *slot) {
    char path[32];
    struct text text = {0};
    bool has_folder = false, has_endpoint = false;
    snprintf(path, sizeof path, "/proc/%d/environ", pid);
    size_t length = proc_read(path, &text) ? text.length : 0;
    for (size_t at = 0; at < length; at += strlen(text.bytes + at) + 1) {
        const char *variable = text.bytes + at;
        has_folder |= text_begins(variable, strlen(variable), "DS_FOLDER=") && !strcmp(variable + strlen("DS_FOLDER="), endpoints);
        has_endpoint |= sscanf(variable, "DS_ENDPOINT=%u/%hu", generation, slot) == 2;
    }
    text_free(&text);
    return has_folder && has_endpoint;
}
