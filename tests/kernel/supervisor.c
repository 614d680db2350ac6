// The third part: sets that hand calls to a supervisor, as match or as mismatch action. This process listens, sees the call that was
// made and answers it; where nobody listens the kernel lets the call fail.

#define _GNU_SOURCE
#include "kernel.h"
#include <errno.h>
#include <fcntl.h>
#include <poll.h>
#include <signal.h>
#include <stdio.h>
#include <sys/ioctl.h>
#include <sys/mman.h>
#include <sys/prctl.h>
#include <sys/syscall.h>
#include <sys/wait.h>
#include <unistd.h>

enum { ANSWER = 4711, ARGUMENT = 2049, MILLISECONDS = 20000 };

// Lies in memory that is shared with the child process.
typedef struct {
    volatile int listener;     // its descriptor in the child; -1: there is none yet
    volatile int heard;        // the supervisor has a copy
    volatile int64_t handed, passed;  // what the call gave that is handed over, and the other one
} meeting;

static uint32_t length;
static instruction filter[LONGEST];

// A set that lists one call.
static bool compiled(uint32_t mismatch, uint32_t match, uint32_t number) {
    uint8_t set[64];
    callfilter_writer writer = callfilter_start(set, sizeof set, CALLFILTER_X86_64, mismatch, match);
    writer = callfilter_list(set, sizeof set, writer, number);
    callfilter_answer answer = callfilter_compile(set, writer.end, (uint8_t *)filter, sizeof filter);
    length = answer.count;
    return answer.code == 0;
}

// Number `asked` is handed over and `free` is not. Behind the filter it makes these two calls alone, and ends by a trap.
static _Noreturn void child(meeting *m, bool listened, long asked, long free) {
    struct sock_fprog program = {.len = length, .filter = filter};
    prctl(PR_SET_PDEATHSIG, SIGKILL);
    if (prctl(PR_SET_NO_NEW_PRIVS, 1, 0, 0, 0) != 0) _exit(1);
    long taken = syscall(SYS_seccomp, SECCOMP_SET_MODE_FILTER, listened ? SECCOMP_FILTER_FLAG_NEW_LISTENER : 0, &program);
    if (taken < 0) _exit(2);
    m->listener = taken;
    while (listened && !m->heard) {}
    m->passed = syscall(free, ARGUMENT) == -1 ? -errno : 0;
    long gave = syscall(asked, ARGUMENT);
    m->handed = gave == -1 ? -errno : gave;
    for (;;) __builtin_trap();
}

// What was seen of the call, as the supervisor answers it; false: no call came.
static bool answered(pid_t process, meeting *m, struct seccomp_notif *seen) {
    int handle = syscall(SYS_pidfd_open, process, 0);
    int listener = syscall(SYS_pidfd_getfd, handle, m->listener, 0);
    m->heard = 1;
    struct pollfd ready = {.fd = listener, .events = POLLIN};
    if (listener < 0 || poll(&ready, 1, MILLISECONDS) != 1 || ioctl(listener, SECCOMP_IOCTL_NOTIF_RECV, seen) != 0) return false;
    struct seccomp_notif_resp answer = {.id = seen->id, .val = ANSWER};
    bool sent = ioctl(listener, SECCOMP_IOCTL_NOTIF_SEND, &answer) == 0;
    close(listener);
    close(handle);
    return sent;
}

static bool met(meeting *m, bool listened, long asked, long free) {
    *m = (meeting){.listener = -1};
    struct seccomp_notif seen = {0};
    pid_t process = fork();
    if (process == 0) child(m, listened, asked, free);
    if (process < 0) fail("no process can be started");
    int status = 0;
    bool ended = false, good = true;
    while (m->listener < 0 && !ended) ended = waitpid(process, &status, WNOHANG) == process;
    if (listened && !ended) good = answered(process, m, &seen) && seen.data.nr == asked && seen.data.args[0] == ARGUMENT;
    if (!good) kill(process, SIGKILL);
    if (!ended) waitpid(process, &status, 0);
    return good && WIFSIGNALED(status) && m->passed != -ENOSYS && m->handed == (listened ? ANSWER : -ENOSYS);
}

bool compare_supervisor(void) {
    static const struct { uint32_t mismatch, match; long asked, free; } tries[] = {
        {CALLFILTER_ALLOW, CALLFILTER_USER_NOTIF, SYS_umask, SYS_alarm},
        {CALLFILTER_USER_NOTIF, CALLFILTER_ALLOW, SYS_alarm, SYS_umask},
    };
    meeting *m = mmap(NULL, sizeof *m, PROT_READ | PROT_WRITE, MAP_SHARED | MAP_ANONYMOUS, -1, 0);
    if (m == MAP_FAILED) fail("no memory");
    unsigned passed = 0, failed = 0;
    for (unsigned at = 0; at < 4; at++) {
        const typeof(*tries) *t = &tries[at / 2];
        bool listened = at % 2, good = compiled(t->mismatch, t->match, SYS_umask) && met(m, listened, t->asked, t->free);
        printf("%s: user notif as %s action, %s\n", good ? "ok" : "FAILED", at < 2 ? "match" : "mismatch",
               listened ? "answered by a supervisor" : "nobody listens");
        passed += good;
        failed += !good;
    }
    printf("%u passed, %u failed\n", passed, failed);
    return failed == 0;
}
