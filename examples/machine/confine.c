/* Takes rights from a driver. See confine.h. */
#include "confine.h"
#include <grp.h>
#include <linux/audit.h>
#include <linux/filter.h>
#include <linux/seccomp.h>
#include <signal.h>
#include <stdbool.h>
#include <stddef.h>
#include <stdlib.h>
#include <sys/prctl.h>
#include <sys/resource.h>
#include <sys/syscall.h>
#include <unistd.h>

enum { NOBODY = 65534 };

#if defined __x86_64__
#define MACHINE AUDIT_ARCH_X86_64
#elif defined __aarch64__
#define MACHINE AUDIT_ARCH_AARCH64
#else
#error "name the machine of this processor, as linux/audit.h does"
#endif

#define LOAD(field) BPF_STMT(BPF_LD | BPF_W | BPF_ABS, offsetof(struct seccomp_data, field))
#define RETURN(action) BPF_STMT(BPF_RET | BPF_K, action)
#define UNLESS(value) BPF_JUMP(BPF_JMP | BPF_JEQ | BPF_K, value, 0, 1)
#define ALLOW(call) UNLESS(__NR_##call), RETURN(SECCOMP_RET_ALLOW)

static const struct sock_filter calls[] = {
    LOAD(arch), BPF_JUMP(BPF_JMP | BPF_JEQ | BPF_K, MACHINE, 1, 0), RETURN(SECCOMP_RET_KILL_PROCESS), LOAD(nr),
    ALLOW(read), ALLOW(write), ALLOW(pread64), ALLOW(pwrite64), ALLOW(recvfrom), ALLOW(sendto), ALLOW(accept4), ALLOW(close),
#ifdef __NR_poll
    ALLOW(poll),
#endif
    ALLOW(ppoll), ALLOW(restart_syscall), ALLOW(exit), ALLOW(exit_group), RETURN(SECCOMP_RET_KILL_PROCESS),
};

static bool limit(int what, rlim_t most) { return !setrlimit(what, &(struct rlimit){most, most}); }

static bool leave_root(void) {
    return geteuid() || (!setgroups(0, NULL) && !setresgid(NOBODY, NOBODY, NOBODY) && !setresuid(NOBODY, NOBODY, NOBODY));
}

/* A change of user clears the signal for the death of the parent, so it is set again. */
void confine(uint64_t longest) {
    struct sock_fprog filter = {.len = sizeof calls / sizeof *calls, .filter = (struct sock_filter *)calls};
    bool is_limited = limit(RLIMIT_CORE, 0) && limit(RLIMIT_FSIZE, longest);
    if (!is_limited || !leave_root() || prctl(PR_SET_PDEATHSIG, SIGKILL) || prctl(PR_SET_NO_NEW_PRIVS, 1, 0, 0, 0)) exit(1);
    if (prctl(PR_SET_SECCOMP, SECCOMP_MODE_FILTER, &filter)) exit(1);
}
