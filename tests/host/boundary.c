/* Calls every exported function through callfilter.h, from C and, compiled once more, from C++: the worked set written, read back, compiled,
 * run and decided, and each refusal once, those of a set with their places. The last line is 'N passed, M failed'. */
#include <stdio.h>
#include <string.h>

#include "callfilter.h"

static int passed, failed;

#define CHECK(what) check((what), #what, __LINE__)

static void check(bool good, const char *what, int line) {
    if (good) {
        passed++;
    } else {
        failed++;
        printf("FAILED line %d: %s\n", line, what);
    }
}

static const uint8_t WORKED_SET[124] = {
    1, 0, 0, 0, 1, 0, 5, 0, 0, 0, 0xff, 0x7f, 3, 0, 0, 0, /* x86_64, errno 1, allow; 3 entries */
    0, 0, 0, 0, 0, 0, 0, 0, /* 0: no rules */
    1, 0, 0, 0, 1, 0, 0, 0, /* 1: a rule */
    1, 0, 0, 0, 0, 4, 0, 0, 0, 0, 0, 0, 1, 0, 0, 0, 0, 0, 0, 0, 0, 0, 0, 0, 0, 0, 0, 0, /* argument 0 dword eq 1 */
    1, 1, 0, 0, 2, 0, 0, 0, /* 257: two rules */
    1, 0, 0, 0, 2, 8, 5, 0, 0, 0, 0, 0, 0, 0, 0, 0, 0, 0, 0, 0, 3, 0, 0, 0, 0, 0, 0, 0, /* argument 2 qword masked eq 0, mask 3 */
    1, 0, 0, 0, 1, 8, 1, 0, 0, 0, 0, 0, 0, 0, 0, 0, 1, 0, 0, 0, 0, 0, 0, 0, 0, 0, 0, 0 /* argument 1 qword ge 2^32 */
};

enum { ROOM = 160 };

/* what a writer must leave alone: all from its set's end on */
static uint8_t buffer[ROOM];

static bool untouched_from(size_t end) {
    for (size_t at = end; at < ROOM; at++)
        if (buffer[at] != 0xa5) return false;
    return true;
}

static bool same_but_for_code(callfilter_writer one, callfilter_writer two) {
    return one.end == two.end && one.entry == two.entry && one.rule == two.rule;
}

static void refused(callfilter_writer after, callfilter_writer before, uint32_t code) {
    CHECK(after.code == code && same_but_for_code(after, before));
    CHECK(untouched_from(before.end));
}

static void written(void) {
    memset(buffer, 0xa5, ROOM);
    callfilter_writer writer = callfilter_start(buffer, ROOM, 4, CALLFILTER_ERRNO(1), CALLFILTER_ALLOW);
    CHECK(writer.code == CALLFILTER_PART_NOT_GOOD && untouched_from(0));
    writer = callfilter_start(buffer, ROOM, CALLFILTER_NATIVE_ONLY, CALLFILTER_ERRNO(1), CALLFILTER_ALLOW);
    CHECK(writer.code == CALLFILTER_PART_NOT_GOOD && untouched_from(0));
    writer = callfilter_start(buffer, 15, CALLFILTER_X86_64, CALLFILTER_ERRNO(1), CALLFILTER_ALLOW);
    CHECK(writer.code == CALLFILTER_NO_ROOM && untouched_from(0));

    writer = callfilter_start(buffer, ROOM, CALLFILTER_X86_64, CALLFILTER_ERRNO(1), CALLFILTER_ALLOW);
    CHECK(writer.code == CALLFILTER_WRITTEN && writer.end == 16 && untouched_from(16));
    refused(callfilter_begin_rule(buffer, ROOM, writer), writer, CALLFILTER_OUT_OF_ORDER);
    refused(callfilter_list(buffer, 23, writer, 0), writer, CALLFILTER_NO_ROOM);

    writer = callfilter_list(buffer, ROOM, writer, 0);
    CHECK(writer.code == CALLFILTER_WRITTEN && writer.end == 24 && writer.entry == 16 && writer.rule == 0 && untouched_from(24));
    writer = callfilter_list(buffer, ROOM, writer, 1);
    refused(callfilter_add_condition(buffer, ROOM, writer, 0, CALLFILTER_DWORD, CALLFILTER_EQ, 1, 0), writer, CALLFILTER_OUT_OF_ORDER);
    writer = callfilter_begin_rule(buffer, ROOM, writer);
    CHECK(writer.code == CALLFILTER_WRITTEN && writer.end == 36 && writer.entry == 24 && writer.rule == 32 && untouched_from(36));
    refused(callfilter_add_condition(buffer, ROOM, writer, 0, 5, CALLFILTER_EQ, 1, 0), writer, CALLFILTER_PART_NOT_GOOD);
    refused(callfilter_add_condition(buffer, ROOM, writer, 0, CALLFILTER_DWORD, 7, 1, 0), writer, CALLFILTER_PART_NOT_GOOD);
    refused(callfilter_add_condition(buffer, ROOM, writer, 0, CALLFILTER_DWORD, CALLFILTER_EQ, 1, 1), writer, CALLFILTER_PART_NOT_GOOD);
    writer = callfilter_add_condition(buffer, ROOM, writer, 0, CALLFILTER_DWORD, CALLFILTER_EQ, 1, 0);
    writer = callfilter_list(buffer, ROOM, writer, 257);
    writer = callfilter_begin_rule(buffer, ROOM, writer);
    writer = callfilter_add_condition(buffer, ROOM, writer, 2, CALLFILTER_QWORD, CALLFILTER_MASKED_EQ, 0, 3);
    writer = callfilter_begin_rule(buffer, ROOM, writer);
    writer = callfilter_add_condition(buffer, ROOM, writer, 1, CALLFILTER_QWORD, CALLFILTER_GE, UINT64_C(1) << 32, 0);
    CHECK(writer.code == CALLFILTER_WRITTEN && writer.end == sizeof WORKED_SET && untouched_from(sizeof WORKED_SET));
    CHECK(memcmp(buffer, WORKED_SET, sizeof WORKED_SET) == 0);

    callfilter_writer forged = {0, 8, 0, 0};
    CHECK(callfilter_list(buffer, ROOM, forged, 0).code == CALLFILTER_STATE_DOES_NOT_FIT);
    CHECK(memcmp(buffer, WORKED_SET, sizeof WORKED_SET) == 0 && untouched_from(sizeof WORKED_SET));
}

static bool is_condition(callfilter_compared read, uint8_t index, uint8_t width, uint8_t comparison, uint64_t value, uint64_t mask) {
    return read.next.code == CALLFILTER_READ && read.index == index && read.width == width && read.comparison == comparison
        && read.value == value && read.mask == mask;
}

static void read_back(void) {
    const uint8_t *set = WORKED_SET;
    size_t size = sizeof WORKED_SET;
    CHECK(callfilter_read_head(set, 15).next.code == CALLFILTER_NOT_THERE);
    callfilter_head head = callfilter_read_head(set, size);
    CHECK(head.next.code == CALLFILTER_READ && head.next.at == 16 && head.next.entries == 3 && head.architecture == CALLFILTER_X86_64);
    CHECK(head.mismatch == CALLFILTER_ERRNO(1) && head.on_match == CALLFILTER_ALLOW);
    callfilter_listed entry = callfilter_next_entry(set, size, head.next);
    CHECK(entry.next.code == CALLFILTER_READ && entry.number == 0 && entry.next.rules == 0);
    CHECK(callfilter_next_rule(set, size, entry.next).code == CALLFILTER_NOT_ITS_TURN);
    entry = callfilter_next_entry(set, size, entry.next);
    CHECK(entry.number == 1 && entry.next.rules == 1);
    CHECK(callfilter_next_entry(set, size, entry.next).next.code == CALLFILTER_NOT_ITS_TURN);
    callfilter_cursor cursor = callfilter_next_rule(set, size, entry.next);
    CHECK(cursor.code == CALLFILTER_READ && cursor.conditions == 1 && cursor.rules == 0);
    CHECK(callfilter_next_condition(set, (size_t)cursor.at + 23, cursor).next.code == CALLFILTER_NOT_THERE);
    callfilter_compared condition = callfilter_next_condition(set, size, cursor);
    CHECK(is_condition(condition, 0, CALLFILTER_DWORD, CALLFILTER_EQ, 1, 0));
    entry = callfilter_next_entry(set, size, condition.next);
    CHECK(entry.number == 257 && entry.next.rules == 2);
    condition = callfilter_next_condition(set, size, callfilter_next_rule(set, size, entry.next));
    CHECK(is_condition(condition, 2, CALLFILTER_QWORD, CALLFILTER_MASKED_EQ, 0, 3));
    condition = callfilter_next_condition(set, size, callfilter_next_rule(set, size, condition.next));
    CHECK(is_condition(condition, 1, CALLFILTER_QWORD, CALLFILTER_GE, UINT64_C(1) << 32, 0));
    CHECK(condition.next.at == size);
    CHECK(callfilter_next_entry(set, size, condition.next).next.code == CALLFILTER_NOT_ITS_TURN);
}

static uint8_t filter[CALLFILTER_LONGEST_FILTER];

#define NOWHERE CALLFILTER_NOWHERE

static bool answered(callfilter_answer given, uint32_t code, uint32_t count, uint32_t entry, uint32_t rule, uint32_t condition) {
    return given.code == code && given.count == count && given.entry == entry && given.rule == rule && given.condition == condition;
}

/* as compiling refuses a set, deciding does, whatever the call */
static bool undecided(const uint8_t *set, size_t size, uint32_t code, uint32_t entry, uint32_t rule, uint32_t condition) {
    static const uint8_t call[CALLFILTER_CALL_SIZE] = {0};
    callfilter_decision given = callfilter_decide(set, size, call, sizeof call);
    return given.code == code && given.action == 0 && given.entry == entry && given.rule == rule && given.condition == condition;
}

typedef callfilter_answer (*form)(const uint8_t *set, size_t set_len, uint8_t *out, size_t out_len);

/* whether the buffer is as it was filled, from an end on */
static bool filter_kept_from(size_t end) {
    for (size_t at = end; at < sizeof filter; at++)
        if (filter[at] != 0xa5) return false;
    return true;
}

static void compiled(form compile, uint32_t count) {
    const uint8_t *set = WORKED_SET;
    memset(filter, 0xa5, sizeof filter);
    callfilter_answer answer = compile(set, sizeof WORKED_SET, filter, 8 * (size_t)count - 1);
    CHECK(answered(answer, CALLFILTER_BUFFER_TOO_SHORT, count, NOWHERE, NOWHERE, NOWHERE));

    uint8_t changed[sizeof WORKED_SET];
    static const struct {
        int at;
        uint8_t byte;
        uint32_t code, entry, rule, condition;
    } faults[] = {
        {0, 9, CALLFILTER_NOT_OF_THE_FORMAT, NOWHERE, NOWHERE, NOWHERE},
        {24, 0, CALLFILTER_NOT_ASCENDING, 1, NOWHERE, NOWHERE},
        {61, 0, CALLFILTER_NOT_ASCENDING, 2, NOWHERE, NOWHERE}, /* 1 behind 1 */
        {36, 6, CALLFILTER_INDEX_ABOVE_FIVE, 1, 0, 0},
        {72, 255, CALLFILTER_INDEX_ABOVE_FIVE, 2, 0, 0},
        {100, 6, CALLFILTER_INDEX_ABOVE_FIVE, 2, 1, 0},
        {48, 1, CALLFILTER_MORE_THAN_32_BITS, 1, 0, 0},
        {101, CALLFILTER_DWORD, CALLFILTER_MORE_THAN_32_BITS, 2, 1, 0},
    };
    for (size_t at = 0; at < sizeof faults / sizeof faults[0]; at++) {
        memcpy(changed, set, sizeof changed);
        changed[faults[at].at] = faults[at].byte;
        answer = compile(changed, sizeof changed, filter, sizeof filter);
        CHECK(answered(answer, faults[at].code, 0, faults[at].entry, faults[at].rule, faults[at].condition));
        CHECK(undecided(changed, sizeof changed, faults[at].code, faults[at].entry, faults[at].rule, faults[at].condition));
    }
    callfilter_writer writer = callfilter_start(changed, sizeof changed, CALLFILTER_AARCH64, CALLFILTER_LOG, CALLFILTER_LOG);
    answer = compile(changed, writer.end, filter, sizeof filter);
    CHECK(answered(answer, CALLFILTER_EQUAL_ACTIONS, 0, NOWHERE, NOWHERE, NOWHERE));
    CHECK(undecided(changed, writer.end, CALLFILTER_EQUAL_ACTIONS, NOWHERE, NOWHERE, NOWHERE));
    CHECK(filter_kept_from(0));

    answer = compile(set, sizeof WORKED_SET, filter, sizeof filter);
    CHECK(answered(answer, CALLFILTER_COMPILED, count, NOWHERE, NOWHERE, NOWHERE));
    CHECK(!filter_kept_from(8 * (size_t)count - 1) && filter_kept_from(8 * (size_t)count));
}

/* Two numbers, of which the second has three rules, of one, four and one conditions on these arguments, or one more rule without conditions
 * in front of the third. */
static callfilter_answer on_arguments(const uint8_t index[6], bool empty, uint64_t mask) {
    static uint8_t set[256];
    callfilter_writer writer = callfilter_start(set, sizeof set, CALLFILTER_AARCH64, CALLFILTER_TRAP, CALLFILTER_LOG);
    writer = callfilter_list(set, sizeof set, callfilter_list(set, sizeof set, writer, 5), 6);
    for (int at = 0; at < 6; at++) {
        if (at == 5 && empty) writer = callfilter_begin_rule(set, sizeof set, writer);
        if (at == 0 || at == 1 || at == 5) writer = callfilter_begin_rule(set, sizeof set, writer);
        writer = callfilter_add_condition(set, sizeof set, writer, index[at], CALLFILTER_DWORD, CALLFILTER_MASKED_EQ, 0, at < 3 ? 1 : mask);
    }
    CHECK(writer.code == CALLFILTER_WRITTEN);
    callfilter_answer answer = callfilter_compile(set, writer.end, filter, sizeof filter);
    if (answer.code != CALLFILTER_COMPILED) CHECK(undecided(set, writer.end, answer.code, answer.entry, answer.rule, answer.condition));
    return answer;
}

/* the first place counts, and the smallest code whatever its place */
static void places(void) {
    static const uint8_t good[6] = {0, 1, 2, 3, 4, 5}, above[6] = {5, 5, 5, 6, 9, 6};
    uint64_t wide = UINT64_C(1) << 32;
    CHECK(on_arguments(good, false, wide - 1).code == CALLFILTER_COMPILED);
    CHECK(answered(on_arguments(good, false, wide), CALLFILTER_MORE_THAN_32_BITS, 0, 1, 1, 2));
    CHECK(answered(on_arguments(above, false, wide), CALLFILTER_INDEX_ABOVE_FIVE, 0, 1, 1, 2));
    CHECK(answered(on_arguments(above, true, wide), CALLFILTER_EMPTY_RULE, 0, 1, 2, NOWHERE));
}

static void put(uint8_t *place, uint64_t value, int size) {
    for (int at = 0; at < size; at++) place[at] = (uint8_t)(value >> (8 * at));
}

static uint8_t long_set[CALLFILTER_LONGEST_SET + 64];

static callfilter_writer spread_calls(uint32_t count, uint32_t apart) {
    size_t room = sizeof long_set;
    callfilter_writer writer = callfilter_start(long_set, room, CALLFILTER_X86_64, CALLFILTER_TRAP, CALLFILTER_ALLOW);
    for (uint32_t number = 0; number < count; number++) writer = callfilter_list(long_set, room, writer, apart * number);
    return writer;
}

static callfilter_writer plain_calls(uint32_t count) { return spread_calls(count, 1); }

static void limits(void) {
    callfilter_writer writer = plain_calls(131070);
    CHECK(writer.code == CALLFILTER_WRITTEN && writer.end == CALLFILTER_LONGEST_SET);
    CHECK(callfilter_list(long_set, sizeof long_set, writer, 131070).code == CALLFILTER_SET_TOO_LONG);
    writer = callfilter_begin_rule(long_set, sizeof long_set, plain_calls(817));
    writer = callfilter_add_condition(long_set, sizeof long_set, writer, 0, CALLFILTER_QWORD, CALLFILTER_MASKED_EQ, 1, 1);
    callfilter_answer answer = callfilter_compile(long_set, writer.end, filter, sizeof filter);
    CHECK(answer.code == CALLFILTER_COMPILED && 8 * answer.count == CALLFILTER_LONGEST_FILTER);
    answer = callfilter_compile(long_set, plain_calls(819).end, filter, sizeof filter);
    CHECK(answered(answer, CALLFILTER_TOO_MANY_INSTRUCTIONS, 4100, 818, NOWHERE, NOWHERE));
    answer = callfilter_compile(long_set, plain_calls(131070).end, filter, sizeof filter);
    CHECK(answered(answer, CALLFILTER_TOO_MANY_INSTRUCTIONS, 655355, 818, NOWHERE, NOWHERE));

    /* of a search, numbers in a row are one question */
    answer = callfilter_compile_search(long_set, plain_calls(131070).end, filter, sizeof filter);
    CHECK(answered(answer, CALLFILTER_COMPILED, 7, NOWHERE, NOWHERE, NOWHERE));
    answer = callfilter_compile_search(long_set, spread_calls(3018, 2).end, filter, sizeof filter);
    CHECK(answer.code == CALLFILTER_COMPILED && 8 * answer.count == CALLFILTER_LONGEST_FILTER);
    memset(filter, 0xa5, sizeof filter);
    answer = callfilter_compile_search(long_set, spread_calls(3019, 2).end, filter, sizeof filter);
    CHECK(answered(answer, CALLFILTER_TOO_MANY_INSTRUCTIONS, 4097, 3018, NOWHERE, NOWHERE) && filter_kept_from(0));
    answer = callfilter_compile_search(long_set, spread_calls(131070, 2).end, filter, sizeof filter);
    CHECK(answer.code == CALLFILTER_TOO_MANY_INSTRUCTIONS && answer.entry == 3018 && filter_kept_from(0));
}

/* what a set of one condition on argument 0 means for it */
static uint32_t meaning(uint8_t width, uint8_t comparison, uint64_t value, uint64_t mask, uint32_t on_match, uint64_t argument) {
    uint8_t set[52], call[CALLFILTER_CALL_SIZE] = {0};
    callfilter_writer writer = callfilter_start(set, sizeof set, CALLFILTER_AARCH64, CALLFILTER_TRACE(9), on_match);
    writer = callfilter_begin_rule(set, sizeof set, callfilter_list(set, sizeof set, writer, 7));
    writer = callfilter_add_condition(set, sizeof set, writer, 0, width, comparison, value, mask);
    put(call, 7, 4);
    put(call + 4, 0xc00000b7, 4);
    put(call + 16, argument, 8);
    callfilter_decision decision = callfilter_decide(set, writer.end, call, sizeof call);
    CHECK(decision.code == CALLFILTER_RETURNED);
    return decision.action;
}

static void numbers(void) {
    static const struct {
        uint8_t comparison;
        const char *holds; /* of 4, 5 and 6 */
    } operators[] = {
        {CALLFILTER_EQ, "nyn"}, {CALLFILTER_NE, "yny"}, {CALLFILTER_GE, "nyy"}, {CALLFILTER_GT, "nny"},
        {CALLFILTER_LE, "yyn"}, {CALLFILTER_LT, "ynn"}, {CALLFILTER_MASKED_EQ, "yyn"},
    };
    for (size_t at = 0; at < sizeof operators / sizeof operators[0]; at++) {
        uint64_t mask = operators[at].comparison == CALLFILTER_MASKED_EQ ? 2 : 0;
        for (int place = 0; place < 3; place++) {
            uint32_t action = meaning(CALLFILTER_QWORD, operators[at].comparison, 5, mask, CALLFILTER_ALLOW, (uint64_t)place + 4);
            CHECK(action == (operators[at].holds[place] == 'y' ? CALLFILTER_ALLOW : CALLFILTER_TRACE(9)));
        }
    }
    CHECK(meaning(CALLFILTER_DWORD, CALLFILTER_EQ, 5, 0, CALLFILTER_ALLOW, (UINT64_C(1) << 32) + 5) == CALLFILTER_ALLOW);
    CHECK(meaning(CALLFILTER_QWORD, CALLFILTER_EQ, 5, 0, CALLFILTER_ALLOW, (UINT64_C(1) << 32) + 5) == CALLFILTER_TRACE(9));
    static const uint32_t actions[] = {CALLFILTER_KILL_PROCESS, CALLFILTER_KILL_THREAD, CALLFILTER_TRAP, CALLFILTER_ERRNO(65535),
                                       CALLFILTER_TRACE(0), CALLFILTER_LOG, CALLFILTER_ALLOW};
    for (size_t at = 0; at < sizeof actions / sizeof actions[0]; at++)
        CHECK(meaning(CALLFILTER_QWORD, CALLFILTER_EQ, 5, 0, actions[at], 5) == actions[at]);
}

static void asked(void) {
    static const struct {
        uint32_t number, architecture;
        uint64_t arguments[3];
        uint32_t action, steps, steps_of_search;
    } calls[] = {
        {0, 0xc000003e, {0, 0, 0}, CALLFILTER_ALLOW, 6, 5},
        {1, 0xc000003e, {(UINT64_C(1) << 32) + 1, 0, 0}, CALLFILTER_ALLOW, 10, 8},
        {1, 0xc000003e, {2, 0, 0}, CALLFILTER_ERRNO(1), 10, 8},
        {257, 0xc000003e, {0, 0, 4}, CALLFILTER_ALLOW, 16, 13},
        {257, 0xc000003e, {0, UINT64_C(1) << 32, 1}, CALLFILTER_ALLOW, 22, 18},
        {257, 0xc000003e, {0, (UINT64_C(1) << 32) - 1, 2}, CALLFILTER_ERRNO(1), 20, 16},
        {2, 0xc000003e, {0, 0, 0}, CALLFILTER_ERRNO(1), 11, 7},
        {0, 0xc00000b7, {0, 0, 0}, CALLFILTER_KILL_PROCESS, 3, 3},
    };
    static uint8_t search[CALLFILTER_LONGEST_FILTER];
    size_t size_of_search = 8 * (size_t)callfilter_compile_search(WORKED_SET, sizeof WORKED_SET, search, sizeof search).count;
    CHECK(callfilter_accepts(search, size_of_search));
    size_t size = 8 * (size_t)callfilter_compile(WORKED_SET, sizeof WORKED_SET, filter, sizeof filter).count;
    CHECK(callfilter_accepts(filter, size));
    CHECK(!callfilter_accepts(filter, size - 1) && !callfilter_accepts(filter, 8) && !callfilter_accepts(filter, 0));
    enum { COUNT = sizeof calls / sizeof calls[0] };
    static uint8_t all[COUNT * CALLFILTER_CALL_SIZE];
    uint8_t call[CALLFILTER_CALL_SIZE];
    for (size_t at = 0; at < COUNT; at++) {
        memset(call, 0, sizeof call);
        put(call, calls[at].number, 4);
        put(call + 4, calls[at].architecture, 4);
        for (int argument = 0; argument < 3; argument++) put(call + 16 + 8 * argument, calls[at].arguments[argument], 8);
        callfilter_outcome outcome = callfilter_run(filter, size, call, sizeof call);
        CHECK(outcome.code == CALLFILTER_RETURNED && outcome.action == calls[at].action && outcome.steps == calls[at].steps);
        outcome = callfilter_run(search, size_of_search, call, sizeof call);
        CHECK(outcome.code == CALLFILTER_RETURNED && outcome.action == calls[at].action && outcome.steps == calls[at].steps_of_search);
        callfilter_decision decision = callfilter_decide(WORKED_SET, sizeof WORKED_SET, call, sizeof call);
        CHECK(decision.code == CALLFILTER_RETURNED && decision.action == calls[at].action && decision.entry == NOWHERE);
        memcpy(all + at * sizeof call, call, sizeof call);
    }
    callfilter_ran ran[COUNT + 1];
    uint8_t *out = (uint8_t *)ran;
    memset(ran, 0xa5, sizeof ran);
    CHECK(callfilter_run_all(filter, size, all, sizeof all - 1, out, 0) == CALLFILTER_NOT_A_CALL);
    CHECK(callfilter_run_all(filter, size - 8, all, sizeof all, out, 0) == CALLFILTER_NOT_TAKEN);
    CHECK(callfilter_run_all(filter, size, all, sizeof all, out, COUNT * sizeof ran[0] - 1) == CALLFILTER_BUFFER_TOO_SHORT);
    CHECK(callfilter_run_all(filter, size, all, 0, out, 0) == CALLFILTER_RETURNED);
    for (size_t at = 0; at < sizeof ran; at++) CHECK(out[at] == 0xa5);
    CHECK(callfilter_run_all(filter, size, all, sizeof all, out, sizeof ran) == CALLFILTER_RETURNED);
    for (size_t at = 0; at < COUNT; at++) CHECK(ran[at].action == calls[at].action && ran[at].steps == calls[at].steps);
    CHECK(ran[COUNT].action == 0xa5a5a5a5 && ran[COUNT].steps == 0xa5a5a5a5);
    CHECK(callfilter_run(filter, size - 8, call, sizeof call).code == CALLFILTER_NOT_TAKEN);
    CHECK(callfilter_run(filter, size, call, sizeof call - 1).code == CALLFILTER_NOT_A_CALL);
    CHECK(callfilter_decide(WORKED_SET, sizeof WORKED_SET - 1, call, sizeof call).code == CALLFILTER_NOT_OF_THE_FORMAT);
    callfilter_decision decision = callfilter_decide(WORKED_SET, sizeof WORKED_SET, call, sizeof call - 1);
    CHECK(decision.code == CALLFILTER_NOT_A_CALL && decision.entry == NOWHERE && decision.rule == NOWHERE && decision.condition == NOWHERE);
}

/* a set for native numbers only that lists some numbers, two of which no call can reach */
static callfilter_writer native_calls(uint32_t architecture) {
    static const uint32_t listed[] = {1, 0x40000001, 0x80000001, 0xfffffffe, 0xffffffff};
    size_t room = sizeof long_set;
    callfilter_writer writer = callfilter_start(long_set, room, architecture, CALLFILTER_ALLOW, CALLFILTER_ERRNO(1));
    for (size_t at = 0; at < sizeof listed / sizeof listed[0]; at++) writer = callfilter_list(long_set, room, writer, listed[at]);
    CHECK(writer.code == CALLFILTER_WRITTEN && callfilter_read_head(long_set, writer.end).architecture == architecture);
    return writer;
}

static void native_by(form compile, uint32_t architecture) {
    static const struct {
        uint32_t number, action, action_of_native;
    } calls[] = {
        {1, CALLFILTER_ERRNO(1), CALLFILTER_ERRNO(1)},
        {0x3fffffff, CALLFILTER_ALLOW, CALLFILTER_ALLOW},
        {0x40000000, CALLFILTER_ALLOW, CALLFILTER_KILL_PROCESS},
        {0x40000001, CALLFILTER_ERRNO(1), CALLFILTER_KILL_PROCESS},
        {0x7fffffff, CALLFILTER_ALLOW, CALLFILTER_KILL_PROCESS},
        {0x80000000, CALLFILTER_ALLOW, CALLFILTER_ALLOW},
        {0x80000001, CALLFILTER_ERRNO(1), CALLFILTER_ERRNO(1)},
        {0xbfffffff, CALLFILTER_ALLOW, CALLFILTER_ALLOW},
        {0xc0000000, CALLFILTER_ALLOW, CALLFILTER_KILL_PROCESS},
        {0xfffffffe, CALLFILTER_ERRNO(1), CALLFILTER_KILL_PROCESS},
        {0xffffffff, CALLFILTER_ERRNO(1), CALLFILTER_ERRNO(1)},
    };
    bool guarded = architecture == (CALLFILTER_X86_64 | CALLFILTER_NATIVE_ONLY);
    callfilter_writer writer = native_calls(architecture & ~(uint32_t)CALLFILTER_NATIVE_ONLY);
    uint32_t count = compile(long_set, writer.end, filter, sizeof filter).count + (guarded ? 3 : 0);
    writer = native_calls(architecture);
    size_t size = 8 * (size_t)count;
    CHECK(answered(compile(long_set, writer.end, filter, size - 1), CALLFILTER_BUFFER_TOO_SHORT, count, NOWHERE, NOWHERE, NOWHERE));
    CHECK(answered(compile(long_set, writer.end, filter, size), CALLFILTER_COMPILED, count, NOWHERE, NOWHERE, NOWHERE));
    CHECK(callfilter_accepts(filter, size));
    static const uint32_t words[] = {0, 0xc000003e, 0xc00000b7, 0xc00000f3};
    for (size_t at = 0; at < sizeof calls / sizeof calls[0]; at++) {
        uint8_t call[CALLFILTER_CALL_SIZE] = {0};
        put(call, calls[at].number, 4);
        put(call + 4, words[architecture & 3], 4);
        uint32_t action = guarded ? calls[at].action_of_native : calls[at].action;
        CHECK(callfilter_run(filter, size, call, sizeof call).action == action);
        callfilter_decision means = callfilter_decide(long_set, writer.end, call, sizeof call);
        CHECK(means.code == CALLFILTER_RETURNED && means.action == action);
    }
}

static void native(void) {
    static const uint32_t architectures[] = {CALLFILTER_X86_64, CALLFILTER_AARCH64, CALLFILTER_RISCV64};
    for (size_t at = 0; at < 6; at++) {
        uint32_t architecture = architectures[at / 2] | (at % 2 ? CALLFILTER_NATIVE_ONLY : 0);
        native_by(callfilter_compile, architecture);
        native_by(callfilter_compile_search, architecture);
    }
    /* nothing listed: the number is loaded all the same */
    callfilter_writer writer =
        callfilter_start(long_set, sizeof long_set, CALLFILTER_X86_64 | CALLFILTER_NATIVE_ONLY, CALLFILTER_TRAP, CALLFILTER_ALLOW);
    CHECK(answered(callfilter_compile(long_set, writer.end, filter, 64), CALLFILTER_COMPILED, 8, NOWHERE, NOWHERE, NOWHERE));
    CHECK(answered(callfilter_compile_search(long_set, writer.end, filter, 63), CALLFILTER_BUFFER_TOO_SHORT, 8, NOWHERE, NOWHERE, NOWHERE));
    /* the guard counts, and another entry is the first that is too much */
    writer = plain_calls(818);
    long_set[1] = CALLFILTER_NATIVE_ONLY >> 8;
    callfilter_answer answer = callfilter_compile(long_set, writer.end, filter, sizeof filter);
    CHECK(answered(answer, CALLFILTER_TOO_MANY_INSTRUCTIONS, 4098, 817, NOWHERE, NOWHERE));
    long_set[0] = CALLFILTER_AARCH64;
    CHECK(answered(callfilter_compile(long_set, writer.end, filter, sizeof filter), CALLFILTER_COMPILED, 4095, NOWHERE, NOWHERE, NOWHERE));
    /* next to the flag */
    static const uint8_t heads[][4] = {{0, 1, 0, 0}, {4, 1, 0, 0}, {1, 2, 0, 0}, {1, 3, 0, 0}, {1, 0, 0, 1}, {1, 1, 0, 1}};
    for (size_t at = 0; at < sizeof heads / sizeof heads[0]; at++) {
        memcpy(long_set, heads[at], 4);
        answer = callfilter_compile(long_set, writer.end, filter, sizeof filter);
        CHECK(answered(answer, CALLFILTER_NOT_OF_THE_FORMAT, 0, NOWHERE, NOWHERE, NOWHERE));
        CHECK(callfilter_read_head(long_set, writer.end).next.code == CALLFILTER_NOT_THERE);
    }
}

/* a pointer to no bytes may be null, wherever there is one */
static void nothing(void) {
    const uint8_t *set = WORKED_SET;
    callfilter_writer writer = {0, 16, 0, 0};
    callfilter_cursor cursor = {0, 0, 1, 1, 1}, at_an_entry = {0, 0, 1, 0, 0}, at_a_rule = {0, 0, 1, 1, 0};
    uint8_t call[CALLFILTER_CALL_SIZE] = {0};
    static const form forms[] = {callfilter_compile, callfilter_compile_search};
    static const uint32_t counts[] = {36, 27};
    for (int at = 0; at < 2; at++) {
        CHECK(answered(forms[at](NULL, 0, NULL, 0), CALLFILTER_NOT_OF_THE_FORMAT, 0, NOWHERE, NOWHERE, NOWHERE));
        CHECK(answered(forms[at](NULL, 0, filter, sizeof filter), CALLFILTER_NOT_OF_THE_FORMAT, 0, NOWHERE, NOWHERE, NOWHERE));
        /* how a size is asked for */
        CHECK(answered(forms[at](set, sizeof WORKED_SET, NULL, 0), CALLFILTER_BUFFER_TOO_SHORT, counts[at], NOWHERE, NOWHERE, NOWHERE));
    }
    CHECK(callfilter_start(NULL, 0, CALLFILTER_X86_64, CALLFILTER_TRAP, CALLFILTER_ALLOW).code == CALLFILTER_NO_ROOM);
    CHECK(callfilter_list(NULL, 0, writer, 0).code == CALLFILTER_NO_ROOM);
    writer.entry = 8;
    CHECK(callfilter_begin_rule(NULL, 0, writer).code == CALLFILTER_NO_ROOM);
    writer.rule = 12;
    CHECK(callfilter_add_condition(NULL, 0, writer, 0, CALLFILTER_QWORD, CALLFILTER_EQ, 0, 0).code == CALLFILTER_NO_ROOM);
    CHECK(callfilter_read_head(NULL, 0).next.code == CALLFILTER_NOT_THERE);
    CHECK(callfilter_next_entry(NULL, 0, at_an_entry).next.code == CALLFILTER_NOT_THERE);
    CHECK(callfilter_next_rule(NULL, 0, at_a_rule).code == CALLFILTER_NOT_THERE);
    CHECK(callfilter_next_condition(NULL, 0, cursor).next.code == CALLFILTER_NOT_THERE);
    CHECK(!callfilter_accepts(NULL, 0));
    size_t size = 8 * (size_t)callfilter_compile(set, sizeof WORKED_SET, filter, sizeof filter).count;
    CHECK(callfilter_run(NULL, 0, call, sizeof call).code == CALLFILTER_NOT_TAKEN);
    CHECK(callfilter_run(filter, size, NULL, 0).code == CALLFILTER_NOT_A_CALL);
    CHECK(callfilter_run_all(filter, size, NULL, 0, NULL, 0) == CALLFILTER_RETURNED);
    CHECK(callfilter_run_all(NULL, 0, call, sizeof call, NULL, 0) == CALLFILTER_NOT_TAKEN);
    CHECK(callfilter_run_all(filter, size, call, sizeof call, NULL, 0) == CALLFILTER_BUFFER_TOO_SHORT);
    CHECK(callfilter_decide(NULL, 0, call, sizeof call).code == CALLFILTER_NOT_OF_THE_FORMAT);
    CHECK(callfilter_decide(set, sizeof WORKED_SET, NULL, 0).code == CALLFILTER_NOT_A_CALL);
}

/* numbers that the compiler does not know: what has more than 16 bits is no action */
static void carried(void) {
    static const int64_t numbers[] = {0, 1, 4095, 65535, 65536, -1, INT64_C(0x100000001)};
    for (size_t at = 0; at < sizeof numbers / sizeof numbers[0]; at++) {
        int64_t number = numbers[at];
        bool fits = 0 <= number && number <= 65535;
        uint32_t lower = fits ? (uint32_t)number : 0;
        CHECK(CALLFILTER_ERRNO(number) == (fits ? 0x00050000 | lower : 0xffffffff));
        CHECK(CALLFILTER_TRACE(number) == (fits ? 0x7ff00000 | lower : 0xffffffff));
        uint32_t code = callfilter_start(buffer, ROOM, CALLFILTER_X86_64, CALLFILTER_ERRNO(number), CALLFILTER_ALLOW).code;
        CHECK(code == (uint32_t)(fits ? CALLFILTER_WRITTEN : CALLFILTER_PART_NOT_GOOD));
    }
}

int main(void) {
    CHECK(CALLFILTER_ABI() == CALLFILTER_VERSION);
    written();
    read_back();
    compiled(callfilter_compile, 36);
    compiled(callfilter_compile_search, 27);
    places();
    limits();
    native();
    numbers();
    asked();
    nothing();
    carried();
    printf("%d passed, %d failed\n", passed, failed);
    return failed != 0;
}
