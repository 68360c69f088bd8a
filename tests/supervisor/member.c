/* member SEED: a service of the storm. It holds its label's lock as long as anything of its group lives, and notes
 * if the lock is held already. Then it acts at random, or does nothing if SEED is `quiet`. If SEED is `deaf`, it stays though its
 * supervisor has ended. */
#include <fcntl.h>
#include <poll.h>
#include <signal.h>
#include <stdio.h>
#include <stdlib.h>
#include <string.h>
#include <sys/file.h>
#include <sys/socket.h>
#include <unistd.h>

enum { DSRS = 3, LINES = 5000, WHATS = 14, LONGEST = 400 /* milliseconds */ };
enum { CONNECTIONS = 20, SERVICES = 12, FIRST_SLOT = 16 };

static const char *label, *endpoint;

static void note(const char *what) {
    char line[128];
    int length = snprintf(line, sizeof line, "%s %s %d %s\n", label, endpoint, getpid(), what);
    int file = open("../../notes", O_WRONLY | O_APPEND | O_CREAT | O_CLOEXEC, 0600);
    if (write(file, line, (size_t)length) != length) abort();
    close(file);
}

static void say(const char *line) { send(DSRS, line, strlen(line), MSG_NOSIGNAL); }

static void wait_for_ever(void) {
    for (;;) pause();
}

static void publish(void) {
    char line[200];
    snprintf(line, sizeof line, "publish %s new %s.pid u32 %d.1 = %d\n", endpoint, label, atoi(endpoint), getpid());
    say(line);
}

/* Requests connections to others, some of which are up. What arrives is dropped. */
static void connect_around(void) {
    for (int i = 0; i < CONNECTIONS; i++) {
        char line[64];
        int generation = atoi(endpoint) - rand() % SERVICES, slot = FIRST_SLOT + rand() % SERVICES;
        snprintf(line, sizeof line, "connect %d/%d\n", generation, slot);
        say(line);
    }
}

/* Acts at the start. A stray gives up the lock, and nothing else. */
static void begin(int what, int lock) {
    if (what == 0 && !fork()) wait_for_ever();
    if (what == 1 && !fork()) {
        setsid();
        close(lock);
        if (!fork()) wait_for_ever();
        _exit(0);
    }
    for (int i = 0; what == 2 && i < 3; i++) {
        if (fork()) continue;
        signal(SIGTERM, SIG_IGN);
        fork();
        wait_for_ever();
    }
    if (what == 3) signal(SIGTERM, SIG_IGN);
}

/* Acts when its time has come. */
static void act(int what, int *is_mute) {
    switch (what) {
    case 4: exit(0);
    case 5: abort();
    case 6: raise(SIGSEGV); break;
    case 7: *is_mute = 1; break;
    case 8: raise(SIGSTOP); break;
    case 9: /* it sends much, and reads nothing */
        for (int i = 0; i < LINES; i++) say("show\n");
        break;
    case 10:
        say("publish 0/2 over rs.x u32 0.1 = 1\n");
        close(DSRS);
        wait_for_ever();
        break;
    case 11: raise(SIGKILL); break;
    default: break;
    }
}

int main(int count, char **words) {
    label = getenv("DS_LABEL");
    endpoint = getenv("DS_ENDPOINT");
    if (count != 2 || !label || !endpoint) return 2;
    int lock = open("lock", O_RDWR | O_CREAT, 0600), is_mute = 0;
    note(flock(lock, LOCK_EX | LOCK_NB) ? "TWO AT ONCE" : "began");
    if (!strcmp(words[1], "deaf")) wait_for_ever();
    srand((unsigned)(atoi(words[1]) * 7919 + atoi(endpoint)));
    publish();
    int what = strcmp(words[1], "quiet") ? rand() % WHATS : WHATS, after = rand() % LONGEST;
    connect_around();
    begin(what, lock);
    for (;;) {
        struct pollfd dsrs = {.fd = DSRS, .events = POLLIN};
        char said[4096];
        if (!poll(&dsrs, 1, after)) {
            after = -1;
            act(what, &is_mute);
            continue;
        }
        ssize_t length = recv(DSRS, said, sizeof said - 1, 0);
        if (length <= 0) return 0;
        said[length] = '\0';
        if (strstr(said, "ping") && !is_mute) say("beat\n");
    }
}
