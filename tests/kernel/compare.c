// Holds an opinion on a filter and its calls to what the kernel said, and shows where they differ.

#include "kernel.h"
#include <inttypes.h>
#include <stdio.h>
#include <stdlib.h>

void fail(const char *why) {
    printf("FAILED %s\n0 passed, 1 failed\n", why);
    exit(1);
}

bool ended_with(uint64_t passed, uint64_t failed) {
    printf("%" PRIu64 " passed, %" PRIu64 " failed%s\n", passed, failed, kernel_has_32_bit_calls() ? "" : ", 1 skipped");
    return failed == 0;
}

// The kernel follows the guard's errno or the filter's answer, whichever has the smaller action as a signed number, and cuts an errno.
int32_t seen_of(uint32_t action) {
    int32_t kind = (int32_t)(action & SECCOMP_RET_ACTION_FULL), data = action & SECCOMP_RET_DATA;
    if (kind < (int32_t)SECCOMP_RET_ERRNO) return DIED;
    if (kind > (int32_t)SECCOMP_RET_ERRNO) return -GUARD_ERRNO;
    return data > MOST_ERRNO ? -MOST_ERRNO : -data;
}

static bool proved_accepts(const question *q, unsigned wrong) {
    (void)wrong;
    return callfilter_accepts((const uint8_t *)q->filter, q->length * sizeof(instruction));
}

static callfilter_outcome proved_run(const question *q, const call *made, unsigned wrong) {
    (void)wrong;
    return callfilter_run((const uint8_t *)q->filter, q->length * sizeof(instruction), (const uint8_t *)made, sizeof *made);
}

const judge proved = {proved_accepts, proved_run}, model = {model_accepts, model_run};

int difference(const question *q, judge by, unsigned wrong) {
    if (by.accepts(q, wrong) != (q->taken == 0)) return ACCEPTANCE;
    if (q->taken != 0) return AGREED;
    for (uint32_t at = 0; at < q->made; at++) {
        callfilter_outcome outcome = by.run(q, &q->call[at], wrong);
        if (outcome.code != 0 || seen_of(outcome.action) != q->seen[at]) return at;
    }
    return AGREED;
}

// ---- what is told of a difference

enum { SHOWN_INSTRUCTIONS = 60 };

static void show_filter(const question *q) {
    for (uint32_t at = 0; at < q->length; at++) {
        const instruction *i = &q->filter[at];
        if (at < SHOWN_INSTRUCTIONS || at + SHOWN_INSTRUCTIONS >= q->length)
            printf("    %4u: code %04x jt %3u jf %3u k %08x\n", at, i->code, i->jt, i->jf, i->k);
        else if (at == SHOWN_INSTRUCTIONS) printf("    ...\n");
    }
}

static void show_seen(const char *who, int32_t seen) {
    if (seen == DIED) printf("    %s: killed\n", who);
    else printf("    %s: errno %d\n", who, -seen);
}

static void show_call(const question *q, unsigned at, judge by) {
    const call *made = &q->call[at];
    printf("    call %u: number %08x architecture %08x pointer %016" PRIx64 " arguments", at, (uint32_t)made->nr, made->arch,
           (uint64_t)made->instruction_pointer);
    for (unsigned index = 0; index < 6; index++) printf(" %016" PRIx64, (uint64_t)made->args[index]);
    callfilter_outcome outcome = by.run(q, made, 0);
    printf("\n    answer %u, action %08x after %u instructions\n", outcome.code, outcome.action, outcome.steps);
    show_seen("so expected", seen_of(outcome.action));
    show_seen("the kernel", q->seen[at]);
}

void show_difference(const question *q, int at, judge by, const char *name) {
    printf("FAILED %s: a filter of %u instructions:\n", name, q->length);
    show_filter(q);
    if (at == ACCEPTANCE) printf("    the kernel %s it\n", q->taken == 0 ? "takes" : "refuses");
    else show_call(q, at, by);
}
