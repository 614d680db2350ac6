// The first part: random filters, which the kernel takes or refuses as callfilter_accepts says, and calls that end as callfilter_run says.
// On the way every wrong definition of model.c must be noticed.

#include "kernel.h"
#include <inttypes.h>
#include <stdio.h>
#include <string.h>

enum { SHOWN = 5, CALLS_AT_LEAST = 5 };

typedef struct {
    uint64_t passed, failed, taken, longest, calls, killed, guarded, drawn[WAYS], refused[WAYS];
    int64_t noticed[WRONGS];  // by which filter; -1: not yet
} tally;

// what the kernel has no say in: bytes that are no whole number of instructions, and what is run of a filter that it refuses
static bool beside_agrees(const question *q, const call *made) {
    const uint8_t *bytes = (const uint8_t *)q->filter;
    for (unsigned more = 1; more < sizeof(instruction); more++)
        if (callfilter_accepts(bytes, q->length * sizeof(instruction) + more)) return false;
    if (callfilter_run(bytes, q->length * sizeof(instruction), (const uint8_t *)made, sizeof *made - 1).code != 9) return false;
    return q->taken == 0 || proved.run(q, made, 0).code == 1;
}

// the number of instructions run, which only the model can be asked
static bool steps_agree(const question *q) {
    for (uint32_t at = 0; q->taken == 0 && at < q->made; at++)
        if (proved.run(q, &q->call[at], 0).steps != model.run(q, &q->call[at], 0).steps) return false;
    return true;
}

static bool judged(const question *q, const char *name, bool show) {
    int by_proved = difference(q, proved, 0), by_model = difference(q, model, 0);
    if (show && by_proved != AGREED) show_difference(q, by_proved, proved, name);
    if (show && by_proved == AGREED && by_model != AGREED) show_difference(q, by_model, model, "the model in plain C alone");
    if (by_proved != AGREED || by_model != AGREED) return false;
    if (beside_agrees(q, &q->call[0]) && steps_agree(q)) return true;
    if (show) show_difference(q, 0, proved, "steps, or an answer that the kernel has no say in");
    return false;
}

static void tally_calls(tally *t, const question *q) {
    t->taken += q->taken == 0;
    t->longest += q->taken == 0 && q->length == 4096;
    for (uint32_t at = 0; q->taken == 0 && at < q->made; at++) {
        t->calls++;
        t->killed += q->seen[at] == DIED;
        t->guarded += q->seen[at] == -GUARD_ERRNO;
    }
}

static void judge_batch(tally *t, const batch *asked, uint64_t seed, uint64_t first) {
    for (uint32_t at = 0; at < asked->count; at++) {
        const question *q = &asked->question[at];
        char name[80];
        snprintf(name, sizeof name, "seed %" PRIu64 ", filter %" PRIu64, seed, first + at);
        bool good = judged(q, name, t->failed < SHOWN);
        t->passed += good;
        t->failed += !good;
        tally_calls(t, q);
        for (unsigned wrong = 1; wrong < WRONGS; wrong++)
            if (t->noticed[wrong] < 0 && difference(q, model, wrong) != AGREED) t->noticed[wrong] = (int64_t)(first + at);
    }
}

static void show_coverage(const tally *t) {
    uint64_t least = UINT64_MAX;
    for (unsigned at = 0; at < CODES; at++) {
        uint64_t executed = covered.executed[codes[at]], jumped = covered.jumped[codes[at]];
        if (executed < least) least = executed;
        if (at >= CODES - 8 && jumped < least) least = jumped;
        if (at >= CODES - 8 && executed - jumped < least) least = executed - jumped;
    }
    printf("each of the %u codes ran at least %" PRIu64 " times, each test both ways; %" PRIu64 " divisions by 0, %" PRIu64
           " shifts by 32 or more\n", CODES, least, covered.divided_by_zero, covered.shifted_far);
    printf("drawn and refused:");
    for (unsigned way = 0; way < WAYS; way++)
        printf("%s %s %" PRIu64 "/%" PRIu64, way ? "," : "", way_names[way], t->drawn[way], t->refused[way]);
    printf("\n");
}

static void judge_wrongs(tally *t) {
    for (unsigned wrong = 1; wrong < WRONGS; wrong++) {
        bool noticed = t->noticed[wrong] >= 0;
        t->passed += noticed;
        t->failed += !noticed;
        if (noticed) printf("noticed by filter %" PRId64 ": %s\n", t->noticed[wrong], wrong_names[wrong]);
        else printf("FAILED not noticed: %s\n", wrong_names[wrong]);
    }
}

static void judge_all(tally *t, uint64_t count) {
    show_coverage(t);
    judge_wrongs(t);
    printf("%" PRIu64 " filters, %" PRIu64 " taken, %" PRIu64 " of these of 4,096 instructions; %" PRIu64 " calls, %" PRIu64
           " killed, %" PRIu64 " held by the guard; %" PRIu64 " processes\n", count, t->taken, t->longest, t->calls, t->killed, t->guarded,
           processes);
    if (t->calls < CALLS_AT_LEAST * count) {
        t->failed++;
        printf("FAILED fewer than %u calls for a filter\n", CALLS_AT_LEAST);
    }
}

bool compare_programs(batch *asked, uint64_t seed, uint64_t first, uint64_t count) {
    tally t = {0};
    memset(t.noticed, 0xff, sizeof t.noticed);
    bool old_calls = kernel_has_32_bit_calls();
    printf("seed %" PRIu64 ", filters %" PRIu64 " to %" PRIu64 "\n", seed, first, first + count - 1);
    if (!old_calls) printf("skipped: this kernel has no 32-bit calls, so that every call shows one architecture word\n");
    for (uint64_t at = 0; at < count; at += asked->count) {
        unsigned ways[BATCH];
        asked->count = count - at < BATCH ? count - at : BATCH;
        for (uint32_t place = 0; place < asked->count; place++) {
            draw d = draw_of(seed, first + at + place);
            ways[place] = draw_question(&d, &asked->question[place], old_calls);
        }
        kernel_asked(asked);
        for (uint32_t place = 0; place < asked->count; place++) {
            t.drawn[ways[place]]++;
            t.refused[ways[place]] += asked->question[place].taken != 0;
        }
        judge_batch(&t, asked, seed, first + at);
    }
    // one filter is asked for to see a difference again
    if (count > 1) judge_all(&t, count);
    return ended_with(t.passed, t.failed);
}
