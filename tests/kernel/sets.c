// The second part: rule sets that callfilter_compile and callfilter_compile_search make filters of, all of which the kernel takes, and calls
// that end as callfilter_decide says of the set and callfilter_run of each filter. Wrong meanings of rule sets must be noticed on the way.

#include "kernel.h"
#include <inttypes.h>
#include <stdio.h>
#include <string.h>

enum { SHOWN = 5, CALLS_AT_LEAST = 40, FAR = 250 };

// Both forms of a set's filter are asked about, one after the other, with the same calls.
enum { LIST_FORM, SEARCH_FORM, FORMS };
static const char *const form_names[FORMS] = {"lists", "searches"};

typedef struct { uint8_t bytes[CALLFILTER_LONGEST_SET]; uint32_t size; } rule_set;

static rule_set sets[BATCH / FORMS]; // of the questions of a batch
static const question *first_asked;  // the first of these

static const rule_set *set_of(const question *q) { return &sets[(q - first_asked) / FORMS]; }

// ---- wrong meanings: what the right one says of a set or a call that was changed

#define LIST(ROW) \
    ROW(NONE, "none") \
    ROW(GE_IS_GT, "test: ge is gt") \
    ROW(GT_IS_GE, "test: gt is ge") \
    ROW(LE_IS_LT, "test: le is lt") \
    ROW(LT_IS_LE, "test: lt is le") \
    ROW(NE_IS_EQ, "test: ne is eq") \
    ROW(MASK_LEFT_OFF, "test: masked eq does not mask") \
    ROW(DWORD_SEES_ALL, "cut: a dword condition sees 64 bits") \
    ROW(QWORD_SEES_LOW, "cut: a qword condition sees 32 bits") \
    ROW(NEXT_ARGUMENT, "argument: an index is one too high") \
    ROW(ACTIONS_SWAPPED, "listed: a match gives the mismatch action") \
    ROW(NUMBER_CUT, "listed: of a call's number 16 bits are compared") \
    ROW(ARCHITECTURES_SWAPPED, "architecture_word: the words are swapped") \
    ROW(ARCHITECTURE_IGNORED, "meaning: a call's architecture is not compared") \
    ROW(NATIVE_IGNORED, "meaning: a second table is served, whatever the set says") \
    ROW(NATIVE_ALWAYS, "meaning: a second table is never served") \
    ROW(SECOND_TABLE_LISTED, "meaning: of a second table the listed numbers are served") \
    ROW(SECOND_TABLE_ABOVE, "in_second_table: every number from 2^30 on is of the table") \
    ROW(SECOND_TABLE_BELOW, "in_second_table: no number from 2^31 on is of the table") \
    ROW(CANCELLED_KILLED, "in_second_table: the number of a cancelled call is of the table")

#define ROW_NAME(name, text) name,
enum { LIST(ROW_NAME) MEANINGS };
#define ROW_TEXT(name, text) text,
static const char *const meaning_names[MEANINGS] = {LIST(ROW_TEXT)};

enum { FLAG = 1, MISMATCH = 4, MATCH = 8, ENTRIES = 12, HEAD = 16, VALUE = 8, MASK = 16, CONDITION = 24 };  // places, and sizes
enum { SECOND_TABLE = 0x40000000 };

static uint32_t word_at(const uint8_t *at) {
    uint32_t word;
    memcpy(&word, at, sizeof word);
    return word;
}

static void change_condition(uint8_t *condition, unsigned wrong) {
    static const uint8_t others[MEANINGS][2] = {
        [GE_IS_GT] = {CALLFILTER_GE, CALLFILTER_GT},
        [GT_IS_GE] = {CALLFILTER_GT, CALLFILTER_GE},
        [LE_IS_LT] = {CALLFILTER_LE, CALLFILTER_LT},
        [LT_IS_LE] = {CALLFILTER_LT, CALLFILTER_LE},
        [NE_IS_EQ] = {CALLFILTER_NE, CALLFILTER_EQ},
        [MASK_LEFT_OFF] = {CALLFILTER_MASKED_EQ, CALLFILTER_EQ},
    };
    uint8_t *index = condition, *width = condition + 1, *comparison = condition + 2;
    if (wrong <= MASK_LEFT_OFF && *comparison == others[wrong][0]) *comparison = others[wrong][1];
    if (wrong == MASK_LEFT_OFF) memset(condition + MASK, 0, 8);
    if (wrong == DWORD_SEES_ALL) *width = CALLFILTER_QWORD;
    if (wrong == QWORD_SEES_LOW) *width = CALLFILTER_DWORD, memset(condition + VALUE + 4, 0, 4), memset(condition + MASK + 4, 0, 4);
    if (wrong == NEXT_ARGUMENT) *index = *index < 5 ? *index + 1 : 0;
}

static void change_set(uint8_t *set, unsigned wrong) {
    uint32_t mismatch = word_at(set + MISMATCH), match = word_at(set + MATCH);
    if (wrong == ACTIONS_SWAPPED) memcpy(set + MISMATCH, &match, 4), memcpy(set + MATCH, &mismatch, 4);
    if (wrong == ARCHITECTURES_SWAPPED) *set = *set == CALLFILTER_X86_64 ? CALLFILTER_RISCV64 : CALLFILTER_X86_64;
    if (wrong == NATIVE_IGNORED || wrong == NATIVE_ALWAYS) set[FLAG] = wrong == NATIVE_ALWAYS;
    uint8_t *at = set + HEAD;
    for (uint32_t entries = word_at(set + ENTRIES); entries > 0; entries--) {
        uint32_t rules = word_at(at + 4);
        for (at += 8; rules > 0; rules--) {
            uint32_t conditions = word_at(at);
            for (at += 4; conditions > 0; conditions--, at += CONDITION) change_condition(at, wrong);
        }
    }
}

static bool is_guarded(const rule_set *set) { return word_at(set->bytes) == (CALLFILTER_X86_64 | CALLFILTER_NATIVE_ONLY); }

static bool is_listed(const rule_set *set, uint32_t number) {
    callfilter_cursor cursor = callfilter_read_head(set->bytes, set->size).next;
    while (cursor.code == CALLFILTER_READ) {
        callfilter_listed entry = callfilter_next_entry(set->bytes, set->size, cursor);
        if (entry.next.code == CALLFILTER_READ && entry.number == number) return true;
        for (cursor = entry.next; cursor.code == CALLFILTER_READ && (cursor.rules || cursor.conditions);)
            cursor = cursor.conditions ? callfilter_next_condition(set->bytes, set->size, cursor).next
                                       : callfilter_next_rule(set->bytes, set->size, cursor);
    }
    return false;
}

// Where a second table is not served: a number of it, or of none, in the place of the call's.
static void change_number(rule_set *set, call *made, unsigned wrong) {
    uint32_t number = made->nr;
    if (wrong == SECOND_TABLE_LISTED && is_listed(set, number)) set->bytes[FLAG] = 0;
    if (wrong == SECOND_TABLE_ABOVE && number > SECOND_TABLE && number != UINT32_MAX) made->nr = SECOND_TABLE;
    if (wrong == SECOND_TABLE_BELOW && number >> 31) set->bytes[FLAG] = 0;
    if (wrong == CANCELLED_KILLED && number == UINT32_MAX) made->nr = SECOND_TABLE;
}

// ---- what is decided

static bool always_taken(const question *q, unsigned wrong) {
    (void)q, (void)wrong;
    return true;
}

static uint32_t architecture_word(uint8_t architecture) {
    static const uint32_t words[] = {
        [CALLFILTER_X86_64] = AUDIT_ARCH_X86_64, [CALLFILTER_AARCH64] = AUDIT_ARCH_AARCH64, [CALLFILTER_RISCV64] = AUDIT_ARCH_RISCV64};
    return words[architecture];
}

static callfilter_outcome decided(const question *q, const call *made, unsigned wrong) {
    static rule_set changed;
    const rule_set *set = set_of(q);
    call changed_call = *made;
    if (wrong != NONE) {
        memcpy(changed.bytes, set->bytes, set->size);
        changed.size = set->size;
        change_set(changed.bytes, wrong);
        if (is_guarded(set)) change_number(&changed, &changed_call, wrong);
        set = &changed;
        if (wrong == NUMBER_CUT) changed_call.nr &= 0xffff;
        if (wrong == ARCHITECTURE_IGNORED) changed_call.arch = architecture_word(*set->bytes);
    }
    callfilter_decision decision = callfilter_decide(set->bytes, set->size, (const uint8_t *)&changed_call, sizeof changed_call);
    if (wrong != NONE && decision.code != 0) fail("a changed set is none any more");
    return (callfilter_outcome){.code = decision.code, .action = decision.action};
}

static const judge meaning = {always_taken, decided};

// ---- sets from standard input

static void read_whole(void *place, size_t size) {
    if (fread(place, 1, size, stdin) != size) fail("the sets end early");
}

static void read_calls(question *q, uint32_t count, bool old_calls) {
    q->calls = 0;
    for (uint32_t at = 0; at < count; at++) {
        call made;
        read_whole(&made, sizeof made);
        if (is_left_out(made.nr) || (made.arch == AUDIT_ARCH_I386 && !old_calls)) continue;
        made.instruction_pointer = pointer_of(made.arch, at);
        q->call[q->calls++] = made;
    }
}

static void compile(question q[FORMS], const rule_set *set) {
    for (unsigned form = 0; form < FORMS; form++) {
        uint8_t *out = (uint8_t *)q[form].filter;
        callfilter_answer answer = form == LIST_FORM ? callfilter_compile(set->bytes, set->size, out, sizeof q->filter)
                                                     : callfilter_compile_search(set->bytes, set->size, out, sizeof q->filter);
        if (answer.code != 0) fail("a set does not compile");
        q[form].length = answer.count;
    }
}

// false: there are no more
static bool read_questions(question q[FORMS], rule_set *set, bool old_calls) {
    uint32_t head[2];
    if (fread(head, 1, sizeof head, stdin) != sizeof head) return false;
    if (head[0] > CALLFILTER_LONGEST_SET || head[1] > MOST_CALLS) fail("a set or its calls are too many for this program");
    set->size = head[0];
    read_whole(set->bytes, set->size);
    read_calls(q, head[1], old_calls);
    for (unsigned form = 1; form < FORMS; form++) q[form].calls = q->calls, memcpy(q[form].call, q->call, sizeof q->call);
    for (unsigned form = 0; form < FORMS; form++) q[form].about_deaths = is_guarded(set);
    compile(q, set);
    return true;
}

// ---- the comparison

typedef struct {
    uint64_t sets, guarded, passed, failed;
    uint64_t taken[FORMS], instructions[FORMS], calls[FORMS], killed[FORMS], matched[FORMS];
    uint64_t far;  // searches that jump to a number's rules, or among their comparisons, over more than a comparison can
    int64_t noticed[MEANINGS];
} tally;

// The comparisons of a call's number stand in front of all that look at arguments.
static bool searches_far(const question *q) {
    for (uint32_t at = 0; at < q->length; at++) {
        const instruction *i = &q->filter[at];
        if (i->code == (BPF_LD | BPF_W | BPF_ABS) && i->k >= offsetof(call, args)) return false;
        if (i->code == (BPF_JMP | BPF_JA) && i->k > FAR) return true;
    }
    return false;
}

static void judge_form(tally *t, const question *q, unsigned form, uint64_t seed, uint64_t index) {
    bool show = t->failed < SHOWN;
    char name[80];
    snprintf(name, sizeof name, "seed %" PRIu64 ", set %" PRIu64 ", of the %s", seed, index, form_names[form]);
    int by_run = difference(q, proved, 0), by_meaning = difference(q, meaning, NONE);
    if (show && by_run != AGREED) show_difference(q, by_run, proved, name);
    if (show && by_meaning != AGREED && by_run != by_meaning) show_difference(q, by_meaning, meaning, name);
    bool good = by_run == AGREED && by_meaning == AGREED;
    t->passed += good;
    t->failed += !good;
    for (unsigned wrong = 1; wrong < MEANINGS; wrong++)
        if (t->noticed[wrong] < 0 && difference(q, meaning, wrong) != AGREED) t->noticed[wrong] = (int64_t)index;
    uint32_t match = word_at(set_of(q)->bytes + MATCH);
    for (uint32_t at = 0; q->taken == 0 && at < q->made; at++) {
        t->calls[form]++;
        t->killed[form] += q->seen[at] == DIED;
        t->matched[form] += q->seen[at] == seen_of(match);
    }
    t->taken[form] += q->taken == 0;
    t->instructions[form] += q->length;
}

static void judge_set(tally *t, const question q[FORMS], uint64_t seed, uint64_t index) {
    for (unsigned form = 0; form < FORMS; form++) judge_form(t, &q[form], form, seed, index);
    t->far += searches_far(&q[SEARCH_FORM]);
    t->guarded += is_guarded(set_of(q));
    t->sets++;
}

static void judge_meanings(tally *t) {
    for (unsigned wrong = 1; wrong < MEANINGS; wrong++) {
        bool noticed = t->noticed[wrong] >= 0;
        t->passed += noticed;
        t->failed += !noticed;
        if (noticed) printf("noticed by set %" PRId64 ": %s\n", t->noticed[wrong], meaning_names[wrong]);
        else printf("FAILED not noticed: %s\n", meaning_names[wrong]);
    }
}

static void judge_all(tally *t) {
    judge_meanings(t);
    for (unsigned form = 0; form < FORMS; form++) {
        printf("%" PRIu64 " %s, %" PRIu64 " taken, of %" PRIu64 " instructions; %" PRIu64 " calls, %" PRIu64 " killed, %" PRIu64
               " as a match ends\n", t->sets, form_names[form], t->taken[form], t->instructions[form], t->calls[form], t->killed[form],
               t->matched[form]);
        if (t->calls[form] < CALLS_AT_LEAST * t->sets) {
            t->failed++;
            printf("FAILED fewer than %u calls for a set\n", CALLS_AT_LEAST);
        }
    }
    printf("%" PRIu64 " sets for native numbers only, on an architecture with a second table\n", t->guarded);
    printf("%s%" PRIu64 " searches jump over more than %u instructions; %" PRIu64 " processes\n", t->far ? "" : "FAILED ", t->far, FAR,
           processes);
    t->failed += t->far == 0;
}

bool compare_sets(batch *asked, uint64_t seed, uint64_t first) {
    tally t = {0};
    memset(t.noticed, 0xff, sizeof t.noticed);
    bool old_calls = kernel_has_32_bit_calls(), more = true;
    first_asked = asked->question;
    printf("seed %" PRIu64 ", sets from %" PRIu64 " on\n", seed, first);
    while (more) {
        for (asked->count = 0; asked->count < BATCH; asked->count += FORMS) {
            more = read_questions(&asked->question[asked->count], &sets[asked->count / FORMS], old_calls);
            if (!more) break;
        }
        kernel_asked(asked);
        for (uint32_t at = 0; at < asked->count; at += FORMS) judge_set(&t, &asked->question[at], seed, first + t.sets);
    }
    // one set is asked for to see a difference again
    if (t.sets > 1) judge_all(&t);
    return ended_with(t.passed, t.failed);
}
