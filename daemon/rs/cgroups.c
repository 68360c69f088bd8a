/* Cgroups of instances. See cgroups.h. */
#include "cgroups.h"
#include "text.h"
#include <dirent.h>
#include <errno.h>
#include <fcntl.h>
#include <limits.h>
#include <linux/magic.h>
#include <stdio.h>
#include <string.h>
#include <sys/file.h>
#include <sys/stat.h>
#include <sys/vfs.h>
#include <sys/xattr.h>
#include <unistd.h>

enum { TRIES = 200, PAUSE = 10000 /* microseconds */ };

static int open_folder(int in, const char *name) { return openat(in, name, O_RDONLY | O_DIRECTORY | O_CLOEXEC); }

void cgroups_kill(int cgroup) {
    int file = cgroup < 0 ? -1 : openat(cgroup, "cgroup.kill", O_WRONLY | O_CLOEXEC);
    if (file < 0) return;
    while (write(file, "1", 1) < 0 && errno == EINTR) {}
    close(file);
}

/* Removes a folder with all folders and files in it. Returns false if a process is in one of the folders. */
static bool remove_in(int in, const char *name) {
    int file = open_folder(in, name);
    DIR *folder = file < 0 ? NULL : fdopendir(file);
    for (struct dirent *entry; folder && (entry = readdir(folder));)
        if (entry->d_type == DT_DIR && *entry->d_name != '.') remove_in(dirfd(folder), entry->d_name);
    if (folder) closedir(folder);
    else if (file >= 0) close(file);
    return !unlinkat(in, name, AT_REMOVEDIR) || errno != EBUSY;
}

bool cgroups_remove(const struct cgroups *cgroups, const char *name) { return remove_in(cgroups->folder, name); }

int cgroups_make(const struct cgroups *cgroups, const char *name) {
    if (mkdirat(cgroups->folder, name, 0755) && errno != EEXIST) return -1;
    return open_folder(cgroups->folder, name);
}

/* ---- which one ---- */

static bool is_marked(const char *path) {
    char mark[2] = "";
    return (getxattr(path, "trusted.delegate", mark, 1) == 1 || getxattr(path, "user.delegate", mark, 1) == 1) && *mark == '1';
}

/* Finds the cgroup of dsrs itself, if systemd delegated one: at one of the places where version 2 is mounted. */
static bool find_own(char path[PATH_MAX]) {
    static const char *const mounts[] = {"/sys/fs/cgroup", "/sys/fs/cgroup/unified"};
    char line[PATH_MAX], own[PATH_MAX] = "";
    FILE *file = fopen("/proc/self/cgroup", "re");
    while (file && fgets(line, sizeof line, file)) sscanf(line, "0::%4000[^\n]", own);
    if (file) fclose(file);
    for (size_t i = 0; *own && i < sizeof mounts / sizeof *mounts; i++) {
        int length = snprintf(path, PATH_MAX, "%s%s", mounts[i], own);
        if (length < PATH_MAX && is_marked(path)) return true;
    }
    return false;
}

/* ---- cgroups of an earlier run ---- */

static bool is_name_of_instance(const char *name) {
    unsigned generation, slot;
    int length = 0;
    return sscanf(name, "%u.%u%n", &generation, &slot, &length) == 2 && !name[length];
}

static void end_left(const struct cgroups *cgroups, const char *name, struct events *events) {
    int cgroup = open_folder(cgroups->folder, name), tries = TRIES;
    cgroups_kill(cgroup);
    if (cgroup >= 0) close(cgroup);
    while (!cgroups_remove(cgroups, name) && --tries) usleep(PAUSE);
    events_tell(events, LOG_WARN, "left: what an earlier run had in the cgroup %s %s", name, tries ? "is gone" : "can't be killed");
}

static void end_all_left(const struct cgroups *cgroups, struct events *events) {
    int file = open_folder(cgroups->folder, ".");
    DIR *folder = file < 0 ? NULL : fdopendir(file);
    for (struct dirent *entry; folder && (entry = readdir(folder));)
        if (entry->d_type == DT_DIR && is_name_of_instance(entry->d_name)) end_left(cgroups, entry->d_name, events);
    if (folder) closedir(folder);
}

/* ---- opening ---- */

static const char *take(struct cgroups *cgroups, const char *path) {
    struct statfs what;
    cgroups->folder = open_folder(AT_FDCWD, path);
    if (cgroups->folder < 0) return strerror(errno);
    if (fstatfs(cgroups->folder, &what) || what.f_type != CGROUP2_SUPER_MAGIC) return "it isn't a cgroup of version 2";
    if (faccessat(cgroups->folder, "cgroup.procs", W_OK, AT_EACCESS)) return strerror(errno);
    return flock(cgroups->folder, LOCK_EX | LOCK_NB) ? "another one uses it" : NULL;
}

bool cgroups_open(struct cgroups *cgroups, const char *path, struct events *events) {
    char own[PATH_MAX];
    cgroups->folder = -1;
    const char *chosen = path ? path : find_own(own) ? own : NULL, *why = chosen ? take(cgroups, chosen) : NULL;
    if (why) {
        events_tell(events, path ? LOG_ERROR : LOG_WARN, "cgroup: %s: %s", chosen, why);
        cgroups_close(cgroups);
        return !path;
    }
    if (cgroups->folder >= 0) end_all_left(cgroups, events);
    return true;
}

void cgroups_close(struct cgroups *cgroups) {
    if (cgroups->folder >= 0) close(cgroups->folder);
    cgroups->folder = -1;
}
