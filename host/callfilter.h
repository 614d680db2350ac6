/* Callfilter for C and C++: every function that libcallfilter.a exports, each with its promise.
 *
 * The promises are proved of every input, against the definitions in crates/definitions/specs; docs/PROMISES.md has them by name. No
 * function looks at what it was called with before: any bytes, states and cursors get their answer. Only what C cannot say is asked:
 * a pointer has as many bytes behind it as its length says, and bytes that are written overlap no others. A pointer to no bytes may be
 * null, as an empty vector's is. */
#ifndef CALLFILTER_H
#define CALLFILTER_H

#include <stdbool.h>
#include <stddef.h>
#include <stdint.h>

#ifdef __cplusplus
extern "C" {
#endif

/* ---- what compilers are told of functions: an answer is looked at, and which bytes are read and written */

#if defined(__GNUC__)
#define CALLFILTER_ANSWERS __attribute__((warn_unused_result))
#else
#define CALLFILTER_ANSWERS
#endif
#define CALLFILTER_BYTES(mode, pointer, length)
#if defined(__has_attribute)
#if __has_attribute(access)
#undef CALLFILTER_BYTES
#define CALLFILTER_BYTES(mode, pointer, length) __attribute__((access(mode, pointer, length)))
#endif
#endif

/* ---- the version */

/* 0.1.0: major, minor and patch, a byte each */
#define CALLFILTER_VERSION UINT32_C(0x000100)

/* The version of the archive, as CALLFILTER_VERSION is that of this header. The name has the number of the binary interface, which is
 * raised with every change of a struct or a signature: a program that includes this header links with no archive of another number. */
uint32_t callfilter_abi_1(void);
#define CALLFILTER_ABI callfilter_abi_1

/* what asks for it, used or not */
#if defined(__has_attribute)
#if __has_attribute(retain)
__attribute__((retain))
#endif
#endif
#if defined(__GNUC__)
__attribute__((used))
#endif
static uint32_t (*const callfilter_abi_asked)(void) = CALLFILTER_ABI;

/* ---- the numbers that stand for names */

enum {
    CALLFILTER_X86_64 = 1,
    CALLFILTER_AARCH64 = 2,
    CALLFILTER_RISCV64 = 3,
    /* Added to one of these: native numbers only. On x86_64 a filter is also asked about the calls of a second table (x32), under the same
     * architecture word, with bit 30 set in their numbers. With this flag each number with that bit kills the process, whatever is listed,
     * but for 0xffffffff, which stands for a call that a tracer has cancelled. seccompiler does not have it: the filter is its filter with
     * three instructions more (the guard), four where nothing is listed; a run that gets past the guard takes at most two of them. The
     * other architectures have no second table: there it changes nothing. */
    CALLFILTER_NATIVE_ONLY = 0x100
};

enum { CALLFILTER_DWORD = 4, CALLFILTER_QWORD = 8 };

enum {
    CALLFILTER_EQ = 0,
    CALLFILTER_GE = 1,
    CALLFILTER_GT = 2,
    CALLFILTER_LE = 3,
    CALLFILTER_LT = 4,
    CALLFILTER_MASKED_EQ = 5,
    CALLFILTER_NE = 6
};

/* Errno and trace carry a number of 16 bits. Where the compiler knows a number that has more it does not compile; else the word is
 * 0xffffffff, which is no action: callfilter_start refuses it. Errno 0 makes a call return 0 without being made, and of a number above
 * 4,095 the kernel makes 4,095. */
#if defined(__GNUC__) && !defined(__cplusplus)
#define CALLFILTER_KNOWN(number) __builtin_choose_expr(__builtin_constant_p(number), (number), 0)
#elif defined(__GNUC__)
#define CALLFILTER_KNOWN(number) (__builtin_constant_p(number) ? (number) : 0)
#else
#define CALLFILTER_KNOWN(number) 0
#endif
#define CALLFILTER_CARRYING(word, number) \
    ((uint64_t)(number) >> 16 < sizeof(char[CALLFILTER_KNOWN(number) >> 16 ? -1 : 1]) ? (word) | (uint32_t)(number) : UINT32_C(0xffffffff))

/* actions: the words that a filter returns */
#define CALLFILTER_KILL_PROCESS UINT32_C(0x80000000)
#define CALLFILTER_KILL_THREAD UINT32_C(0x00000000)
#define CALLFILTER_TRAP UINT32_C(0x00030000)
#define CALLFILTER_ERRNO(number) CALLFILTER_CARRYING(UINT32_C(0x00050000), number)
#define CALLFILTER_USER_NOTIF UINT32_C(0x7fc00000)
#define CALLFILTER_TRACE(number) CALLFILTER_CARRYING(UINT32_C(0x7ff00000), number)
#define CALLFILTER_LOG UINT32_C(0x7ffc0000)
#define CALLFILTER_ALLOW UINT32_C(0x7fff0000)

/* ---- sizes, in bytes */

enum {
    CALLFILTER_LONGEST_SET = 1048576, /* a longer set is not of the format */
    CALLFILTER_LONGEST_FILTER = 32768, /* 4,096 instructions: into a buffer of this size every set that can be is compiled */
    CALLFILTER_CALL_SIZE = 64 /* struct seccomp_data of seccomp(2): number, architecture word, instruction pointer, six arguments */
};

/* ---- compiling */

enum {
    CALLFILTER_COMPILED = 0,
    CALLFILTER_NOT_OF_THE_FORMAT = 1,
    CALLFILTER_NOT_ASCENDING = 2, /* call numbers are listed in strictly ascending order */
    CALLFILTER_EQUAL_ACTIONS = 3,
    CALLFILTER_EMPTY_RULE = 4, /* a rule has at least one condition; a number that always matches has no rules */
    CALLFILTER_INDEX_ABOVE_FIVE = 5,
    CALLFILTER_TOO_MANY_INSTRUCTIONS = 6, /* 4,097 or more: the kernel takes 4,096 */
    CALLFILTER_BUFFER_TOO_SHORT = 7,
    CALLFILTER_MORE_THAN_32_BITS = 8 /* the value or mask of a dword condition, which looks at 32: cut a negative int, (uint32_t)AT_FDCWD */
};

/* stands for an entry, a rule or a condition that an answer does not speak of */
#define CALLFILTER_NOWHERE UINT32_C(0xffffffff)

/* count: with codes 0, 6 and 7 how many instructions of eight bytes the filter has, else 0.
 * entry: with 2 the one whose number is not above that of the one before it, with 6 the first with which the filter, its last return
 * included, is too long, with 4, 5 and 8 the one that the fault is in. rule: with 4, 5 and 8, of this entry. condition: with 5 and 8, of
 * this rule. All are counted from 0, are the first in the order of the bytes, and with other codes CALLFILTER_NOWHERE. A search need not
 * grow with each entry: with 6 the one that is told makes it too long, where those before it do not, but it need not be the first. */
typedef struct {
    uint32_t code, count, entry, rule, condition;
} callfilter_answer;

/* With no room at all a set that compiles gets 7, and with it the count: so the size is asked for, 8 bytes an instruction. */

/* Answers the smallest number that applies, and where; refusing, it writes nothing. With 0 out begins with seccompiler's filter, byte for
 * byte, and the rest stays: for any call it returns what the set means, it runs no instruction twice, and the kernel's checks pass on it. */
callfilter_answer callfilter_compile(const uint8_t *set, size_t set_len, uint8_t *out, size_t out_len)
    CALLFILTER_ANSWERS CALLFILTER_BYTES(read_only, 1, 2) CALLFILTER_BYTES(write_only, 3, 4);

/* The same, but for the bytes: a binary search, never longer than that filter, so that every set is compiled that callfilter_compile takes.
 * With at most 2^k spans (a number with rules, or a row without) a run takes k + max(6, k) + 1 instructions at most, beside guard and rules. */
callfilter_answer callfilter_compile_search(const uint8_t *set, size_t set_len, uint8_t *out, size_t out_len)
    CALLFILTER_ANSWERS CALLFILTER_BYTES(read_only, 1, 2) CALLFILTER_BYTES(write_only, 3, 4);

/* ---- writing a rule set part by part */

enum {
    CALLFILTER_WRITTEN = 0,
    CALLFILTER_PART_NOT_GOOD = 1, /* a number that stands for no architecture, action, width or operator; a mask without masked eq */
    CALLFILTER_OUT_OF_ORDER = 2, /* a rule before any number is listed, a condition before a rule is begun */
    CALLFILTER_NO_ROOM = 3, /* copied into a longer buffer, the set can be written on with the same state */
    CALLFILTER_SET_TOO_LONG = 4,
    CALLFILTER_STATE_DOES_NOT_FIT = 5 /* no writer returned this state, or a start that was refused */
};

/* What became of the last part; end: how many bytes the set has; entry, rule: where the open ones are, 0 for none. A writer is handed the
 * buffer, or a copy of it, and the state as the last one left them; with any other, too, all behind the end that is returned stays. */
typedef struct {
    uint32_t code, end, entry, rule;
} callfilter_writer;

/* Starts a set that lists nothing; after it, whatever parts are taken or refused, the bytes up to end are the byte form of the parts taken,
 * read back as these, and are never answer 1. Refused (1 or 3), nothing is written, and no writer takes the state. */
callfilter_writer callfilter_start(uint8_t *out, size_t out_len, uint32_t architecture, uint32_t mismatch, uint32_t on_match)
    CALLFILTER_ANSWERS CALLFILTER_BYTES(write_only, 1, 2);

/* Lists a number, which matches whatever its arguments are until a rule is begun for it: the set has this entry more, at its end.
 * Refused (3, 4 or 5), nothing is written, and the state is as it came but for its code. */
callfilter_writer callfilter_list(uint8_t *out, size_t out_len, callfilter_writer writer, uint32_t number)
    CALLFILTER_ANSWERS CALLFILTER_BYTES(read_write, 1, 2);

/* Begins a rule for the number listed last: the set has this rule more, without conditions yet.
 * Refused (2 to 5), nothing is written, and the state is as it came but for its code. */
callfilter_writer callfilter_begin_rule(uint8_t *out, size_t out_len, callfilter_writer writer)
    CALLFILTER_ANSWERS CALLFILTER_BYTES(read_write, 1, 2);

/* Adds a condition to the rule begun last; every index is taken here, and those above 5 are refused by compiling.
 * Refused (1 to 5), nothing is written, and the state is as it came but for its code. */
callfilter_writer callfilter_add_condition(uint8_t *out, size_t out_len, callfilter_writer writer, uint8_t index, uint8_t width,
                                           uint8_t comparison, uint64_t value, uint64_t mask)
    CALLFILTER_ANSWERS CALLFILTER_BYTES(read_write, 1, 2);

/* ---- reading a rule set part by part */

enum {
    CALLFILTER_READ = 0,
    CALLFILTER_NOT_THERE = 1, /* what should be there is not of the format */
    CALLFILTER_NOT_ITS_TURN = 2 /* or nothing is left */
};

/* what became of the last call, the place of the next part, and how many entries, rules of the open entry and conditions of the open rule
 * are left */
typedef struct {
    uint32_t code, at, entries, rules, conditions;
} callfilter_cursor;

/* architecture: with CALLFILTER_NATIVE_ONLY added where the set has it */
typedef struct {
    callfilter_cursor next;
    uint32_t architecture, mismatch, on_match;
} callfilter_head;

typedef struct {
    callfilter_cursor next;
    uint32_t number;
} callfilter_listed;

typedef struct {
    callfilter_cursor next;
    uint8_t index, width, comparison;
    uint64_t value, mask;
} callfilter_compared;

/* Reads the head of a set, and gives the cursor before its first entry; of a set in the format the readers give back every part in order,
 * and then stand at its end. Where there is no head (1), all else is 0. */
callfilter_head callfilter_read_head(const uint8_t *set, size_t set_len)
    CALLFILTER_ANSWERS CALLFILTER_BYTES(read_only, 1, 2);

/* Reads the number listed next, once every rule of the last one is read.
 * Where that cannot be (1 or 2), the cursor is as it came but for its code. */
callfilter_listed callfilter_next_entry(const uint8_t *set, size_t set_len, callfilter_cursor cursor)
    CALLFILTER_ANSWERS CALLFILTER_BYTES(read_only, 1, 2);

/* Goes on to the next rule, once every condition of the last one is read.
 * Where that cannot be (1 or 2), the cursor is as it came but for its code. */
callfilter_cursor callfilter_next_rule(const uint8_t *set, size_t set_len, callfilter_cursor cursor)
    CALLFILTER_ANSWERS CALLFILTER_BYTES(read_only, 1, 2);

/* Reads the next condition of the open rule.
 * Where that cannot be (1 or 2), the cursor is as it came but for its code. */
callfilter_compared callfilter_next_condition(const uint8_t *set, size_t set_len, callfilter_cursor cursor)
    CALLFILTER_ANSWERS CALLFILTER_BYTES(read_only, 1, 2);

/* ---- asking, without a kernel */

/* of decide, the codes 1 to 5 and 8 are those of compiling; of run_all, 7 says that out has less than 8 bytes for each call */
enum {
    CALLFILTER_RETURNED = 0,
    CALLFILTER_NOT_TAKEN = 1, /* of run and run_all: the kernel would not take the filter */
    CALLFILTER_NOT_A_CALL = 9 /* the call is not 64 bytes, or the calls are not 64 each; comes before all else */
};

/* action: the word that is returned; steps: how many instructions were executed; both 0 unless the code is 0 */
typedef struct {
    uint32_t code, action, steps;
} callfilter_outcome;

/* the same of one call among many, as it stands in the bytes that are written */
typedef struct {
    uint32_t action, steps;
} callfilter_ran;

/* action: 0 unless the code is 0; entry, rule, condition: the place of the fault, as in callfilter_answer */
typedef struct {
    uint32_t code, action, entry, rule, condition;
} callfilter_decision;

/* Whether the kernel's checks, as the definitions have them, pass on the filter.
 * Any bytes may be offered, made by whomever. */
bool callfilter_accepts(const uint8_t *filter, size_t filter_len)
    CALLFILTER_ANSWERS CALLFILTER_BYTES(read_only, 1, 2);

/* What the filter returns for a call, and after how many instructions, as the definitions' machine runs it.
 * A filter that callfilter_accepts takes always returns (0); any other is not run (1). */
callfilter_outcome callfilter_run(const uint8_t *filter, size_t filter_len, const uint8_t *call, size_t call_len)
    CALLFILTER_ANSWERS CALLFILTER_BYTES(read_only, 1, 2) CALLFILTER_BYTES(read_only, 3, 4);

/* What the filter returns for each of many calls, 64 bytes each, one behind the other: the kernel's checks are made once for all of them.
 * With 0 out begins with a callfilter_ran for each call, in their order, and the rest stays. Refusing (9, 1 or 7), it writes nothing. */
uint32_t callfilter_run_all(const uint8_t *filter, size_t filter_len, const uint8_t *calls, size_t calls_len, uint8_t *out, size_t out_len)
    CALLFILTER_ANSWERS CALLFILTER_BYTES(read_only, 1, 2) CALLFILTER_BYTES(read_only, 3, 4) CALLFILTER_BYTES(write_only, 5, 6);

/* What the set means for a call, straight from the bytes of both: where the set compiles, its filter returns this action for the call.
 * A set in which compiling refuses something (1 to 5, 8) gets that number and place; one whose filter is too long has its meaning. */
callfilter_decision callfilter_decide(const uint8_t *set, size_t set_len, const uint8_t *call, size_t call_len)
    CALLFILTER_ANSWERS CALLFILTER_BYTES(read_only, 1, 2) CALLFILTER_BYTES(read_only, 3, 4);

#ifdef __cplusplus
}
#endif

#endif
