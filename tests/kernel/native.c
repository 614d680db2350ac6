// The fourth part: sets for native numbers only. Filters of both forms are asked about numbers around each place where the second table of
// x86_64 begins or ends, and a tracer changes numbers behind the process's back. What has to be seen is spelled out here, and is what
// callfilter_decide and callfilter_run say too. Whether the kernel serves the second table makes no difference: a filter sees all 32 bits
// of a number before the kernel looks for the call.

#define _GNU_SOURCE
#include "kernel.h"
#include <errno.h>
#include <signal.h>
#include <stdio.h>
#include <string.h>
#include <sys/mman.h>
#include <sys/prctl.h>
#include <sys/ptrace.h>
#include <sys/syscall.h>
#include <sys/user.h>
#include <sys/wait.h>
#include <unistd.h>

enum { MISMATCH_ERRNO = 7, MATCH_ERRNO = 9, SET_ROOM = 1024 };

static const struct { uint32_t number; bool second; } numbers[] = {
    {SYS_getpid, false}, {0x3fffffff, false}, {0x40000000, true}, {0x40000001, true}, {0x40000000 + SYS_getpid, true}, {0x7fffffff, true},
    {0x80000000, false}, {0x80000001, false}, {0xbfffffff, false}, {0xc0000000, true}, {0xc0000001, true}, {0xfffffffe, true},
    {0xffffffff, false},
};
enum { NUMBERS = sizeof numbers / sizeof *numbers };

// ---- sets

enum { NOTHING, NATIVE, SECOND, ALL, BY_RULES, LISTS };
static const char *const list_names[LISTS] = {
    "nothing", "native numbers", "numbers of the second table", "all of them", "all of them, where argument 0 is 1"};

static bool lists(unsigned list, unsigned at) {
    bool second = numbers[at].second;
    return list == ALL || list == BY_RULES || (list == NATIVE && !second) || (list == SECOND && second);
}

typedef struct { uint8_t bytes[SET_ROOM]; uint32_t size; } small_set;

static callfilter_writer start(small_set *set, bool native_only) {
    uint32_t architecture = CALLFILTER_X86_64 | (native_only ? CALLFILTER_NATIVE_ONLY : 0);
    return callfilter_start(set->bytes, SET_ROOM, architecture, CALLFILTER_ERRNO(MISMATCH_ERRNO), CALLFILTER_ERRNO(MATCH_ERRNO));
}

static small_set set_of(bool native_only, unsigned list) {
    small_set set;
    callfilter_writer w = start(&set, native_only);
    for (unsigned at = 0; at < NUMBERS; at++) {
        if (lists(list, at)) w = callfilter_list(set.bytes, SET_ROOM, w, numbers[at].number);
        if (list != BY_RULES) continue;
        w = callfilter_begin_rule(set.bytes, SET_ROOM, w);
        w = callfilter_add_condition(set.bytes, SET_ROOM, w, 0, CALLFILTER_DWORD, CALLFILTER_EQ, 1, 0);
    }
    if (w.code != CALLFILTER_WRITTEN) fail("a set was not written");
    set.size = w.end;
    return set;
}

static uint32_t compiled(const small_set *set, bool search, instruction *filter) {
    callfilter_answer answer = search ? callfilter_compile_search(set->bytes, set->size, (uint8_t *)filter, LONGEST * sizeof *filter)
                                      : callfilter_compile(set->bytes, set->size, (uint8_t *)filter, LONGEST * sizeof *filter);
    if (answer.code != CALLFILTER_COMPILED) fail("a set does not compile");
    return answer.count;
}

// ---- numbers that a process makes

// What the kernel gives for a call with this number and argument, the set's filter over the guard.
static int32_t expected(bool native_only, unsigned list, unsigned at, unsigned argument) {
    if (native_only && numbers[at].second) return DIED;
    return lists(list, at) && (list != BY_RULES || argument == 1) ? -MATCH_ERRNO : -MISMATCH_ERRNO;
}

static void put_calls(question *q) {
    q->about_deaths = true;
    q->calls = 2 * NUMBERS;
    for (unsigned at = 0; at < q->calls; at++) {
        q->call[at] = (call){.nr = (int)numbers[at / 2].number, .arch = AUDIT_ARCH_X86_64, .args = {at % 2}};
        q->call[at].instruction_pointer = pointer_of(AUDIT_ARCH_X86_64, at);
    }
}

static bool as_expected(const question *q, const small_set *set, bool native_only, unsigned list) {
    if (difference(q, proved, 0) != AGREED || q->taken != 0 || q->made != 2 * NUMBERS) return false;
    for (unsigned at = 0; at < q->made; at++) {
        callfilter_decision means = callfilter_decide(set->bytes, set->size, (const uint8_t *)&q->call[at], sizeof q->call[at]);
        int32_t wanted = expected(native_only, list, at / 2, at % 2);
        if (q->seen[at] == wanted && means.code == CALLFILTER_RETURNED && seen_of(means.action) == wanted) continue;
        printf("FAILED number %08x, argument %u: the kernel gave %d, the set means %08x, expected %d\n", numbers[at / 2].number, at % 2,
               q->seen[at], means.action, wanted);
        return false;
    }
    return true;
}

// ---- numbers that a tracer puts in the place of a process's own

enum { TRACED = 3 };
// the first call is cancelled, the second left as it is, the third made one of the second table
static const int64_t changes[TRACED] = {-1, SYS_getpid, 0x40000000 + SYS_getpid};

enum { UNTRACED = 1, NOT_TAKEN = 2 };  // how it ends where it comes to no call

static _Noreturn void traced_child(const instruction *filter, uint32_t length, volatile int32_t *gave) {
    struct sock_fprog program = {.len = length, .filter = (instruction *)filter};
    if (prctl(PR_SET_PDEATHSIG, SIGKILL) != 0 || prctl(PR_SET_NO_NEW_PRIVS, 1, 0, 0, 0) != 0) _exit(NOT_TAKEN);
    if (ptrace(PTRACE_TRACEME, 0, NULL, NULL) != 0) _exit(UNTRACED);
    raise(SIGSTOP);
    if (syscall(SYS_seccomp, SECCOMP_SET_MODE_FILTER, 0, &program) != 0) _exit(NOT_TAKEN);
    for (unsigned at = 0; at < TRACED; at++) gave[at] = syscall(SYS_getpid) == -1 ? -errno : 0;
    for (;;) __builtin_trap();
}

// Changes the number of a call that is about to be made.
static bool changed_at_entry(pid_t process, unsigned *changed) {
    struct user_regs_struct registers;
    if (ptrace(PTRACE_GETREGS, process, NULL, &registers) != 0) return false;
    if (registers.orig_rax != SYS_getpid || *changed == TRACED) return true;
    registers.orig_rax = (unsigned long long)changes[(*changed)++];
    return ptrace(PTRACE_SETREGS, process, NULL, &registers) == 0;
}

// how the process ended; one that can be traced no further is ended
static int ended_under_tracer(pid_t process) {
    int status = 0;
    unsigned stops = 0, changed = 0;
    for (bool first = true; waitpid(process, &status, 0) == process && WIFSTOPPED(status); first = false) {
        bool at_call = WSTOPSIG(status) == (SIGTRAP | 0x80), good = true;
        intptr_t handed_on = first || at_call ? 0 : WSTOPSIG(status);
        if (first) good = ptrace(PTRACE_SETOPTIONS, process, NULL, (void *)(PTRACE_O_TRACESYSGOOD | PTRACE_O_EXITKILL)) == 0;
        // every other stop is behind a call
        else if (at_call && stops++ % 2 == 0) good = changed_at_entry(process, &changed);
        if (!good || ptrace(PTRACE_SYSCALL, process, NULL, (void *)handed_on) != 0) kill(process, SIGKILL);
    }
    return status;
}

enum { GOOD, WRONG, NOT_TRIED };

// The last number is listed and no other is, so that what the filter saw is known from what the call gave.
static int traced(bool native_only, bool search) {
    static instruction filter[LONGEST];
    small_set set;
    set.size = callfilter_list(set.bytes, SET_ROOM, start(&set, native_only), UINT32_MAX).end;
    uint32_t length = compiled(&set, search, filter);
    volatile int32_t *gave = mmap(NULL, TRACED * sizeof *gave, PROT_READ | PROT_WRITE, MAP_SHARED | MAP_ANONYMOUS, -1, 0);
    if (gave == MAP_FAILED) fail("no memory");
    for (unsigned at = 0; at < TRACED; at++) gave[at] = DIED;
    pid_t process = fork();
    if (process == 0) traced_child(filter, length, gave);
    if (process < 0) fail("no process can be started");
    int status = ended_under_tracer(process), signal = WIFSIGNALED(status) ? WTERMSIG(status) : 0;
    if (WIFEXITED(status) && WEXITSTATUS(status) == UNTRACED) return NOT_TRIED;
    bool good = gave[0] == -MATCH_ERRNO && gave[1] == -MISMATCH_ERRNO && gave[2] == (native_only ? DIED : -MISMATCH_ERRNO)
        && signal != 0 && (signal == SIGSYS) == native_only;
    if (!good) printf("FAILED under a tracer: %d, %d, %d, ended with status %x\n", gave[0], gave[1], gave[2], status);
    return good ? GOOD : WRONG;
}

// ---- all of it

// Without a filter, so by the kernel's own tables.
static bool serves_second_table(void) { return syscall(0x40000000 + SYS_getpid) == getpid(); }

static void asked_about(batch *asked, small_set sets[], bool native_only) {
    asked->count = 2 * LISTS;
    for (unsigned at = 0; at < asked->count; at++) {
        question *q = &asked->question[at];
        if (at % 2 == 0) sets[at / 2] = set_of(native_only, at / 2);
        q->length = compiled(&sets[at / 2], at % 2 == 1, q->filter);
        put_calls(q);
    }
    kernel_asked(asked);
}

static unsigned results[NOT_TRIED + 1];

static void told(int result, bool native_only, bool search, const char *of_what) {
    static const char *const words[] = {[GOOD] = "ok", [WRONG] = "FAILED", [NOT_TRIED] = "not tried"};
    results[result]++;
    printf("%s: %s, %s, %s\n", words[result], native_only ? "native numbers only" : "all numbers", search ? "a search" : "a list", of_what);
}

bool compare_native(batch *asked) {
    static small_set sets[LISTS];
    char of_what[100];
    for (unsigned native_only = 0; native_only < 2; native_only++) {
        asked_about(asked, sets, native_only);
        for (unsigned at = 0; at < asked->count; at++) {
            const question *q = &asked->question[at];
            snprintf(of_what, sizeof of_what, "which lists %s: %u calls, %u killed", list_names[at / 2], q->made, q->deaths);
            told(as_expected(q, &sets[at / 2], native_only, at / 2) ? GOOD : WRONG, native_only, at % 2, of_what);
        }
    }
    for (unsigned way = 0; way < 4; way++) told(traced(way / 2, way % 2), way / 2, way % 2, "a tracer cancels a call and changes another");
    printf("this kernel %s the second table\n", serves_second_table() ? "serves" : "does not serve");
    printf("%u passed, %u failed", results[GOOD], results[WRONG]);
    if (results[NOT_TRIED] != 0) printf(", %u skipped", results[NOT_TRIED]);
    printf("\n");
    return results[WRONG] == 0;
}
