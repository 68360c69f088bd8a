/* A process that dsrs begins. See process.h. */
#include "process.h"
#include <errno.h>
#include <fcntl.h>
#include <limits.h>
#include <linux/sched.h>
#include <signal.h>
#include <stdarg.h>
#include <stdbool.h>
#include <stdio.h>
#include <stdlib.h>
#include <string.h>
#include <sys/prctl.h>
#include <sys/syscall.h>
#include <unistd.h>

enum { NOT_RUN = 127, SPARE = 16 /* descriptors below this one are given out by number */ };
enum { VARIABLES = 9, VARIABLE = 192 /* bytes of one; paths of sockets are short */ };

/* The variables that are a process' own. They are made on the stack of the child: it may not allocate memory, since dsrs
 * may have had another thread. */
struct variables { size_t count; char text[VARIABLES][VARIABLE]; };

/* ---- environment ---- */

__attribute__((format(printf, 2, 3))) static void set(struct variables *own, const char *format, ...) {
    va_list given;
    va_start(given, format);
    vsnprintf(own->text[own->count++], VARIABLE, format, given);
    va_end(given);
}

static void set_all(struct variables *own, const struct process *process) {
    set(own, "DS_LABEL=%s", process->label);
    if (!process->endpoint) return;
    set(own, "DS_ENDPOINT=%s", process->endpoint);
    set(own, "DS_FOLDER=%s", process->endpoints);
    set(own, "DS_FD=%d", PROCESS_SOCKET);
    set(own, "DS_LISTEN=%d", PROCESS_LISTENER);
    set(own, "NOTIFY_SOCKET=%s/notify", process->endpoints);
    if (process->first_sub >= 0) set(own, "DS_SUB=%d", process->first_sub);
    if (!process->silence) return;
    set(own, "WATCHDOG_USEC=%llu", (unsigned long long)process->silence);
    set(own, "WATCHDOG_PID=%d", getpid());
}

/* Whether dsrs sets a variable for some processes. A variable of that name in dsrs' own environment isn't passed on. */
static bool is_given(const char *variable) {
    static const char *const names[] = {"DS_LABEL", "DS_ENDPOINT", "DS_FOLDER", "DS_FD", "DS_LISTEN", "DS_SUB", "NOTIFY_SOCKET",
                                        "WATCHDOG_USEC", "WATCHDOG_PID"};
    size_t length = strcspn(variable, "=");
    for (size_t i = 0; i < sizeof names / sizeof *names; i++)
        if (strlen(names[i]) == length && !memcmp(names[i], variable, length)) return true;
    return false;
}

static void execute_run(const struct process *process) {
    struct variables own = {0};
    size_t count = 0, used = 0;
    while (environ[count]) count++;
    char *list[count + VARIABLES + 1], *words[] = {"./run", NULL};
    for (size_t i = 0; i < count; i++)
        if (!is_given(environ[i])) list[used++] = environ[i];
    set_all(&own, process);
    for (size_t i = 0; i < own.count; i++) list[used++] = own.text[i];
    list[used] = NULL;
    execve(*words, words, list);
}

/* ---- the rest ---- */

/* Both ignored and blocked signals would pass the exec: a shell's `&` ignores some, and dsrs blocks some. */
static void reset_signals(void) {
    sigset_t none;
    for (int number = 1; number < NSIG; number++) signal(number, SIG_DFL);
    sigemptyset(&none);
    sigprocmask(SIG_SETMASK, &none, NULL);
}

/* Leaves the standard streams, an instance's socket and listener, and no other descriptor. Returns false, with errno. */
static bool set_descriptors(const struct process *process) {
    bool has_sockets = process->endpoint, has_output = process->output >= 0;
    int input = process->input < 0 ? open("/dev/null", O_RDONLY | O_CLOEXEC) : process->input, socket = -1, listener = -1;
    if (has_sockets) socket = fcntl(process->socket, F_DUPFD_CLOEXEC, SPARE), listener = fcntl(process->listener, F_DUPFD_CLOEXEC, SPARE);
    if (input < 0 || dup2(input, STDIN_FILENO) < 0) return false;
    if (has_output && (dup2(process->output, STDOUT_FILENO) < 0 || dup2(process->output, STDERR_FILENO) < 0)) return false;
    fcntl(STDIN_FILENO, F_SETFL, 0); /* the pipe may have O_NONBLOCK of an earlier process */
    if (has_output) fcntl(STDOUT_FILENO, F_SETFL, 0);
    if (has_sockets && (dup2(socket, PROCESS_SOCKET) < 0 || dup2(listener, PROCESS_LISTENER) < 0)) return false;
    return !close_range(has_sockets ? PROCESS_LISTENER + 1 : PROCESS_SOCKET, ~0U, 0);
}

/* The child. A change of user in `run` clears PDEATHSIG; then the end of the socket reports the end of dsrs. */
static _Noreturn void become(const struct process *process, pid_t parent) {
    char folder[PATH_MAX];
    if (process->endpoint) setsid();
    else setpgid(0, 0);
    prctl(PR_SET_PDEATHSIG, SIGKILL);
    if (getppid() != parent) _exit(NOT_RUN); /* dsrs ended before the line above */
    reset_signals();
    int length = snprintf(folder, sizeof folder, "%s/%s", process->services, process->folder);
    errno = ENAMETOOLONG;
    if (length < (int)sizeof folder && set_descriptors(process) && !chdir(folder)) execute_run(process);
    dprintf(STDERR_FILENO, "dsrs: %s/run: %s\n", folder, strerror(errno));
    _exit(NOT_RUN);
}

/* Forks, straight into the cgroup if there is one. The child's descriptor is made with the child, so every child has one. Only a
 * cgroup needs clone3, which the filters of many containers refuse. */
static pid_t fork_into(int cgroup, int *pidfd) {
    long flags = CLONE_PIDFD | SIGCHLD;
    if (cgroup < 0) return (pid_t)syscall(SYS_clone, flags, NULL, pidfd, NULL, NULL);
    struct clone_args how = {.flags = CLONE_PIDFD | CLONE_INTO_CGROUP, .exit_signal = SIGCHLD, .cgroup = (uint64_t)cgroup,
                             .pidfd = (uint64_t)(uintptr_t)pidfd};
    return (pid_t)syscall(SYS_clone3, &how, sizeof how);
}

pid_t process_begin(const struct process *process, int *pidfd) {
    pid_t parent = getpid(), child = fork_into(process->endpoint ? process->cgroup : -1, pidfd);
    if (!child) become(process, parent);
    return child;
}
