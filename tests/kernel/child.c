// Asks the real kernel. A child process puts a guard filter on itself and the filter under test over it, makes the calls and notes in
// shared memory what each gave. Of two filters the kernel follows the stricter answer, so no call is ever let through: what the filter
// under test would allow gives the guard's errno.

#define _GNU_SOURCE
#include "kernel.h"
#include <errno.h>
#include <signal.h>
#include <stdio.h>
#include <string.h>
#include <sys/mman.h>
#include <sys/prctl.h>
#include <sys/syscall.h>
#include <sys/wait.h>
#include <unistd.h>

enum { STARTED, GUARDED, DONE };
enum { SECONDS = 60 };

// ---- calls with known registers, from a known place

// A call's data as the argument. Copies of these stand in a page of their own, so that the instruction pointer is known beforehand.
__asm__(
    ".text\n"
    "native_call:\n"
    "    movl 0(%rdi), %eax\n"
    "    movq 24(%rdi), %rsi\n"
    "    movq 32(%rdi), %rdx\n"
    "    movq 40(%rdi), %r10\n"
    "    movq 48(%rdi), %r8\n"
    "    movq 56(%rdi), %r9\n"
    "    movq 16(%rdi), %rdi\n"
    "    syscall\n"
    "native_after:\n"
    "    ret\n"
    "native_end:\n"
    "old_call:\n"
    "    pushq %rbx\n"
    "    pushq %rbp\n"
    "    movl 0(%rdi), %eax\n"
    "    movl 16(%rdi), %ebx\n"
    "    movl 24(%rdi), %ecx\n"
    "    movl 32(%rdi), %edx\n"
    "    movl 40(%rdi), %esi\n"
    "    movl 56(%rdi), %ebp\n"
    "    movl 48(%rdi), %edi\n"
    "    int $0x80\n"
    "old_after:\n"
    "    popq %rbp\n"
    "    popq %rbx\n"
    "    ret\n"
    "old_end:\n");
extern const uint8_t native_call[], native_after[], native_end[], old_call[], old_after[], old_end[];

// both halves of the address are unlike anything else that a filter can load
#define PAGE ((uint8_t *)0x23456789a000)
enum { PAGE_SIZE = 4096, SLOT = 128, OLD = 64, SLOTS = PAGE_SIZE / SLOT };

static void place_calls(void) {
    uint8_t *page = mmap(PAGE, PAGE_SIZE, PROT_READ | PROT_WRITE, MAP_PRIVATE | MAP_ANONYMOUS | MAP_FIXED_NOREPLACE, -1, 0);
    if (page != PAGE) fail("no memory at the address that the calls are made from");
    for (unsigned slot = 0; slot < SLOTS; slot++) {
        memcpy(page + slot * SLOT, native_call, native_end - native_call);
        memcpy(page + slot * SLOT + OLD, old_call, old_end - old_call);
    }
    if (mprotect(page, PAGE_SIZE, PROT_READ | PROT_EXEC) != 0) fail("the calls cannot be made executable");
}

static ptrdiff_t before_pointer(uint32_t architecture) {
    return architecture == AUDIT_ARCH_I386 ? old_after - old_call : native_after - native_call;
}

uint64_t pointer_of(uint32_t architecture, unsigned slot) {
    unsigned at = slot % SLOTS * SLOT + (architecture == AUDIT_ARCH_I386 ? OLD : 0);
    return (uint64_t)(uintptr_t)(PAGE + at) + before_pointer(architecture);
}

static int32_t make(const call *made) {
    uint64_t (*entry)(const call *) = (uint64_t (*)(const call *))(made->instruction_pointer - before_pointer(made->arch));
    return (int32_t)entry(made);
}

static int32_t make_native(int number, uint64_t one, uint64_t two, uint64_t three) {
    call made = {.nr = number, .arch = AUDIT_ARCH_X86_64, .instruction_pointer = pointer_of(AUDIT_ARCH_X86_64, 0), .args = {one, two, three}};
    return make(&made);
}

static int32_t install(const instruction *filter, uint32_t length) {
    struct sock_fprog program = {.len = length, .filter = (instruction *)filter};
    return make_native(SYS_seccomp, SECCOMP_SET_MODE_FILTER, 0, (uintptr_t)&program);
}

// 335 and 336 (uretprobe, uprobe) never reach a filter on newer kernels; the guard lets seccomp(2) through
bool is_left_out(uint32_t number) { return number == 335 || number == 336 || number == SYS_seccomp; }

// ---- the child

static const instruction guard[] = {
    BPF_STMT(BPF_LD | BPF_W | BPF_ABS, offsetof(call, arch)),
    BPF_JUMP(BPF_JMP | BPF_JEQ | BPF_K, AUDIT_ARCH_X86_64, 0, 3),
    BPF_STMT(BPF_LD | BPF_W | BPF_ABS, offsetof(call, nr)),
    BPF_JUMP(BPF_JMP | BPF_JEQ | BPF_K, SYS_seccomp, 0, 1),
    BPF_STMT(BPF_RET | BPF_K, SECCOMP_RET_ALLOW),
    BPF_STMT(BPF_RET | BPF_K, SECCOMP_RET_ERRNO | GUARD_ERRNO),
};

// From the question at hand on: filters that the kernel refuses leave no trace, so many can be tried, up to the first that it takes.
static _Noreturn void child(batch *asked) {
    if (prctl(PR_SET_PDEATHSIG, SIGKILL) != 0 || prctl(PR_SET_DUMPABLE, 0) != 0) _exit(1);
    if (prctl(PR_SET_NO_NEW_PRIVS, 1, 0, 0, 0) != 0 || install(guard, sizeof guard / sizeof *guard) != 0) _exit(2);
    asked->stage = GUARDED;
    for (; asked->at < asked->count; asked->at++) {
        question *q = &asked->question[asked->at];
        q->taken = install(q->filter, q->length);
        if (q->taken == 0) {
            for (; q->made < q->calls; q->made++) q->seen[q->made] = make(&q->call[q->made]);
            break;
        }
    }
    asked->stage = DONE;
    // it can make no call any more, not even to end
    for (;;) __builtin_trap();
}

// ---- the parent

uint64_t processes;

static void late(int number) { (void)number; }

// how the process ended; one that does not end by itself is ended
static int ended(pid_t process) {
    int status = 0;
    alarm(SECONDS);
    if (waitpid(process, &status, 0) != process) {
        kill(process, SIGKILL);
        waitpid(process, &status, 0);
        fail("a child process did not end in time");
    }
    alarm(0);
    return status;
}

static int child_ended(batch *asked) {
    asked->stage = STARTED;
    processes++;
    pid_t process = fork();
    if (process == 0) child(asked);
    if (process < 0) fail("no process can be started");
    return ended(process);
}

static void ask_on(batch *asked) {
    int status = child_ended(asked);
    if (asked->stage == STARTED) fail("seccomp(2) is not allowed here: the guard filter was not taken");
    if (!WIFSIGNALED(status)) fail("a child process ended by itself: a call passed the guard");
    question *q = &asked->question[asked->at];
    if (asked->stage == DONE) {
        asked->at++;
        return;
    }
    if (WTERMSIG(status) != SIGSYS) fail("a child process ended by another signal than the kernel's for a filter");
    q->seen[q->made++] = DIED;
    if (++q->deaths == MOST_DEATHS && !q->about_deaths) q->calls = q->made;
    if (q->made == q->calls) asked->at++;
}

void kernel_asked(batch *asked) {
    for (unsigned at = 0; at < asked->count; at++) asked->question[at].made = asked->question[at].deaths = 0;
    asked->at = 0;
    while (asked->at < asked->count) ask_on(asked);
    for (unsigned at = 0; at < asked->count; at++) {
        int32_t taken = asked->question[at].taken;
        if (taken != 0 && taken != -EINVAL) fail("seccomp(2) refused a filter for another reason than the filter");
    }
}

// Tried in a process of its own: a kernel without them ends it.
bool kernel_has_32_bit_calls(void) {
    enum { OLD_GETPPID = 64 };
    pid_t parent = getpid(), process = fork();
    if (process == 0) {
        call made = {.nr = OLD_GETPPID, .arch = AUDIT_ARCH_I386, .instruction_pointer = pointer_of(AUDIT_ARCH_I386, 0)};
        prctl(PR_SET_DUMPABLE, 0);
        _exit(make(&made) == parent ? 0 : 1);
    }
    if (process < 0) fail("no process can be started");
    int status = ended(process);
    return WIFEXITED(status) && WEXITSTATUS(status) == 0;
}

batch *kernel_ready(void) {
    struct sigaction action = {.sa_handler = late};
    if (sigaction(SIGALRM, &action, NULL) != 0) fail("no alarm");
    place_calls();
    batch *asked = mmap(NULL, sizeof *asked, PROT_READ | PROT_WRITE, MAP_SHARED | MAP_ANONYMOUS, -1, 0);
    if (asked == MAP_FAILED) fail("no memory");
    asked->count = 0;
    asked->at = 0;
    child_ended(asked);
    if (asked->stage != DONE) fail("seccomp(2) is not allowed here: the guard filter was not taken");
    return asked;
}
