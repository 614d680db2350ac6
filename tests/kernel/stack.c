// The fifth part: how many filters a process may stack. The kernel counts the instructions of all of them, in its own translation and with
// those that were inherited, up to a limit; docs/HOSTS.md tells hosts how, and here a child process stacks copies until one is refused.

#define _GNU_SOURCE
#include "kernel.h"
#include <errno.h>
#include <stdio.h>
#include <stdlib.h>
#include <string.h>
#include <sys/mman.h>
#include <sys/prctl.h>
#include <sys/syscall.h>
#include <sys/wait.h>
#include <unistd.h>

enum { IN_ALL = 32768, FOR_EACH = 3, FOR_EACH_THERE = 4, FIRST = 1000 };

typedef struct { volatile uint32_t taken; volatile int error; } stacked;

typedef struct {
    const char *name;
    bool search;
    uint32_t architecture, first, count, apart, conditions;  // numbers that no process here makes, each with so many conditions
} shape;

static uint32_t length;
static instruction filter[LONGEST];

// An instruction in the kernel's translation: twice for a return, and once more for a comparison with 2^31 or more, and where neither of
// its jumps goes to the next instruction.
static uint32_t translated(const instruction *i) {
    if (BPF_CLASS(i->code) == BPF_RET) return 2;
    if (BPF_CLASS(i->code) != BPF_JMP || BPF_OP(i->code) == BPF_JA) return 1;
    bool next = i->jf == 0 || (i->jt == 0 && BPF_OP(i->code) != BPF_JSET);
    return 1 + (i->k >> 31) + !next;
}

static uint32_t counted(void) {
    uint32_t sum = FOR_EACH;
    for (uint32_t at = 0; at < length; at++) sum += translated(&filter[at]);
    return sum;
}

static bool compiled(const shape *s) {
    static uint8_t set[CALLFILTER_LONGEST_SET];
    callfilter_writer writer = callfilter_start(set, sizeof set, s->architecture, CALLFILTER_ALLOW, CALLFILTER_ERRNO(1));
    for (uint32_t at = 0; at < s->count; at++) {
        writer = callfilter_list(set, sizeof set, writer, s->first + s->apart * at);
        if (s->conditions) writer = callfilter_begin_rule(set, sizeof set, writer);
        for (uint32_t condition = 0; condition < s->conditions; condition++)
            writer = callfilter_add_condition(set, sizeof set, writer, 0, CALLFILTER_QWORD, (uint8_t)(condition % 5), UINT64_MAX - at, 0);
    }
    callfilter_answer answer =
        (s->search ? callfilter_compile_search : callfilter_compile)(set, writer.end, (uint8_t *)filter, sizeof filter);
    length = answer.count;
    return answer.code == CALLFILTER_COMPILED;
}

static _Noreturn void child(stacked *s) {
    struct sock_fprog program = {.len = (unsigned short)length, .filter = filter};
    if (prctl(PR_SET_NO_NEW_PRIVS, 1, 0, 0, 0) != 0) _exit(1);
    while (syscall(SYS_seccomp, SECCOMP_SET_MODE_FILTER, 0, &program) == 0) s->taken++;
    s->error = errno;
    _exit(0);
}

static bool inherited(void) {
    char line[256];
    long filters = 0;
    FILE *status = fopen("/proc/self/status", "r");
    while (status && fgets(line, sizeof line, status))
        if (strncmp(line, "Seccomp_filters:", 16) == 0) filters = strtol(line + 16, NULL, 10);
    if (status) fclose(status);
    return filters != 0;
}

// The copies that fit: the newest, and each other with four more.
static bool stacks(stacked *s, const shape *shape) {
    if (!compiled(shape)) return false;
    *s = (stacked){0};
    pid_t process = fork();
    if (process == 0) child(s);
    if (process < 0) fail("no process can be started");
    int status = 0;
    waitpid(process, &status, 0);
    uint32_t each = counted(), wanted = 1 + (IN_ALL - each) / (each + FOR_EACH_THERE);
    bool good = WIFEXITED(status) && WEXITSTATUS(status) == 0 && s->taken == wanted && s->error == ENOMEM;
    printf("%s: %s, %u instructions, which the kernel counts as %u: %u taken, and then errno %d\n", good ? "ok" : "FAILED", shape->name, length,
           each, s->taken, s->error);
    return good;
}

bool compare_stack(void) {
    static const shape shapes[] = {
        {"a list of 5 calls", false, CALLFILTER_X86_64, FIRST, 5, 1, 0},
        {"a search of 11 calls apart", true, CALLFILTER_X86_64, FIRST, 11, 2, 0},
        {"a list of 818 calls", false, CALLFILTER_X86_64, FIRST, 818, 1, 0},
        {"a list of 412 calls apart", false, CALLFILTER_X86_64, FIRST, 412, 2, 0},
        {"a search of 412 calls apart", true, CALLFILTER_X86_64, FIRST, 412, 2, 0},
        {"a search of 818 calls apart", true, CALLFILTER_X86_64, FIRST, 818, 2, 0},
        {"a search of 3,018 calls apart", true, CALLFILTER_X86_64, FIRST, 3018, 2, 0},
        {"a list of 60 calls with conditions", false, CALLFILTER_X86_64, FIRST, 60, 2, 5},
        {"a search of 60 calls with conditions", true, CALLFILTER_X86_64, FIRST, 60, 2, 5},
        {"a list of 412 calls, native numbers only", false, CALLFILTER_X86_64 | CALLFILTER_NATIVE_ONLY, FIRST, 412, 2, 0},
        {"a search of 412 numbers from 2^31 on", true, CALLFILTER_X86_64, UINT32_C(1) << 31, 412, 2, 0},
    };
    if (inherited()) {
        printf("this process has filters already, and they count\n0 passed, 0 failed, 1 skipped\n");
        return true;
    }
    stacked *s = mmap(NULL, sizeof *s, PROT_READ | PROT_WRITE, MAP_SHARED | MAP_ANONYMOUS, -1, 0);
    if (s == MAP_FAILED) fail("no memory");
    unsigned passed = 0, failed = 0;
    for (unsigned at = 0; at < sizeof shapes / sizeof shapes[0]; at++) {
        bool good = stacks(s, &shapes[at]);
        passed += good;
        failed += !good;
    }
    printf("%u passed, %u failed\n", passed, failed);
    return failed == 0;
}
