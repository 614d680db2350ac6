// The kernel's checks and the machine once more, in plain C from linux/filter.h, so that they can be made wrong: each wrong one is what an
// edit to a definition would make of it, and the comparison with the kernel must notice it. The right one counts what the filters tried,
// and has an opinion on the number of instructions run, which the kernel does not tell.

#include "kernel.h"
#include <string.h>

// NAME, the definition that is edited, and what is wrong then
#define LIST(ROW) \
    ROW(NONE, "none") \
    ROW(ACCEPTS_EMPTY, "accepts: a filter of no instructions is taken") \
    ROW(ACCEPTS_LONG, "accepts: 4,097 instructions are taken") \
    ROW(ACCEPTS_SHORT, "accepts: 4,096 instructions are refused") \
    ROW(CODES_MODULO, "codes: modulo by a constant is among them") \
    ROW(CODES_NEGATION, "codes: the negation is missing") \
    ROW(CODES_HALF, "codes: only the low byte of a code is looked at") \
    ROW(TAKEN_UNALIGNED, "taken_as ld_abs: a load need not be aligned") \
    ROW(TAKEN_BEHIND_CALL, "taken_as ld_abs: offset 64 is taken") \
    ROW(TAKEN_JUMP_TO_END, "taken_as ja: a jump right behind the last instruction is taken") \
    ROW(TAKEN_TRUE_OUT, "taken_as jump: jt is not looked at") \
    ROW(TAKEN_FALSE_OUT, "taken_as jump: jf is not looked at") \
    ROW(TAKEN_SCRATCH, "taken_as st: scratch word 16 is taken") \
    ROW(CONSTANT_DIVISION, "constant_taken: a division by 0 is taken") \
    ROW(CONSTANT_SHIFT, "constant_taken: a shift by 32 is taken") \
    ROW(NO_RETURN, "ends_in_return: the last instruction is not looked at") \
    ROW(SCRATCH_ONE_WAY, "scratch_next: a branch narrows only where it goes if true") \
    ROW(SCRATCH_RETURN, "scratch_next: behind a return every word is written") \
    ROW(DIVISION_GOES_ON, "compute: a division by 0 gives 0 and the run goes on") \
    ROW(SHIFT_LEFT_FAR, "compute: a left shift by 32 or more gives 0") \
    ROW(SHIFT_RIGHT_FAR, "compute: a right shift by 32 or more gives 0") \
    ROW(SHIFT_SIGNED, "compute: a right shift keeps the sign") \
    ROW(SUBTRACTION_TURNED, "compute: a subtraction the other way round") \
    ROW(GREATER_OR_EQUAL, "test_holds: gt is ge") \
    ROW(COMPARED_SIGNED, "test_holds: ge compares signed numbers") \
    ROW(SET_INVERTED, "test_holds: set is inverted") \
    ROW(LENGTH_ZERO, "step_as ld_len: the length is 0") \
    ROW(NEGATION_BITWISE, "step_as neg: every bit is turned, and no more") \
    ROW(STORE_A, "step_as stx: the accumulator is stored") \
    ROW(JUMP_ONE_SHORT, "step_as ja: distances above 0 are one shorter") \
    ROW(HALVES_SWAPPED, "words: an argument's high word comes first") \
    ROW(POINTER_ZERO, "words: the instruction pointer is 0") \
    ROW(START_LENGTH, "start: the index register starts as 64")

#define ROW_NAME(name, text) name,
enum { LIST(ROW_NAME) LISTED };
_Static_assert((int)LISTED == (int)WRONGS, "kernel.h says how many");
#define ROW_TEXT(name, text) text,
const char *const wrong_names[WRONGS] = {LIST(ROW_TEXT)};

coverage covered;

// ---- the checks

enum { TAKEN_AT_MOST = 4096, WORDS = 16 };

static bool constant_taken(instruction i, unsigned wrong) {
    switch (BPF_OP(i.code)) {
    case BPF_DIV: return i.k != 0 || wrong == CONSTANT_DIVISION;
    case BPF_LSH:
    case BPF_RSH: return i.k < 32 || (i.k == 32 && wrong == CONSTANT_SHIFT);
    default: return true;
    }
}

static bool scratch_named(instruction i, unsigned wrong) {
    return i.k < WORDS || (i.k == WORDS && BPF_CLASS(i.code) == BPF_ST && wrong == TAKEN_SCRATCH);
}

// an instruction with a number of instructions behind it
static bool instruction_taken(instruction i, uint32_t behind, unsigned wrong) {
    switch (BPF_CLASS(i.code)) {
    case BPF_LD:
    case BPF_LDX:
        if (BPF_MODE(i.code) == BPF_MEM) return scratch_named(i, wrong);
        if (BPF_MODE(i.code) != BPF_ABS) return true;
        return (i.k % 4 == 0 || wrong == TAKEN_UNALIGNED) && (i.k < 64 || (i.k == 64 && wrong == TAKEN_BEHIND_CALL));
    case BPF_ST:
    case BPF_STX: return scratch_named(i, wrong);
    case BPF_ALU: return BPF_SRC(i.code) == BPF_X || i.code == (BPF_ALU | BPF_NEG) || constant_taken(i, wrong);
    case BPF_JMP:
        if (BPF_OP(i.code) == BPF_JA) return i.k < behind || (i.k == behind && wrong == TAKEN_JUMP_TO_END);
        return (i.jt < behind || wrong == TAKEN_TRUE_OUT) && (i.jf < behind || wrong == TAKEN_FALSE_OUT);
    default: return true;
    }
}

static uint16_t code_of(instruction i, unsigned wrong) {
    if (wrong == CODES_MODULO && i.code == (BPF_ALU | BPF_MOD | BPF_K)) return BPF_ALU | BPF_ADD | BPF_K;
    if (wrong == CODES_NEGATION && i.code == (BPF_ALU | BPF_NEG)) return BPF_ALU | BPF_MOD | BPF_K;
    return wrong == CODES_HALF ? i.code & 0xff : i.code;
}

// every instruction's k and jumps are in range here, unless wrongly taken
static bool scratch_taken(const instruction *filter, uint32_t length, unsigned wrong) {
    static uint16_t ahead[LONGEST + 257];
    memset(ahead, 0xff, sizeof *ahead * (length + 257));
    uint16_t written = 0;
    for (uint32_t at = 0; at < length; at++) {
        instruction i = filter[at];
        written &= ahead[at];
        switch (BPF_CLASS(i.code)) {
        case BPF_LD:
        case BPF_LDX:
            if (BPF_MODE(i.code) == BPF_MEM && !(written >> i.k & 1)) return false;
            break;
        case BPF_ST:
        case BPF_STX: written |= 1u << i.k; break;
        case BPF_JMP:
            if (BPF_OP(i.code) == BPF_JA) ahead[at + 1 + i.k] &= written;
            else {
                ahead[at + 1 + i.jt] &= written;
                if (wrong != SCRATCH_ONE_WAY) ahead[at + 1 + i.jf] &= written;
            }
            written = 0xffff;
            break;
        case BPF_RET:
            if (wrong == SCRATCH_RETURN) written = 0xffff;
            break;
        default: break;
        }
    }
    return true;
}

bool model_accepts(const question *q, unsigned wrong) {
    static instruction filter[LONGEST];
    uint32_t length = q->length;
    if (length == 0) return wrong == ACCEPTS_EMPTY;
    uint32_t most = wrong == ACCEPTS_LONG ? TAKEN_AT_MOST + 1 : wrong == ACCEPTS_SHORT ? TAKEN_AT_MOST - 1 : TAKEN_AT_MOST;
    if (length > most) return false;
    for (uint32_t at = 0; at < length; at++) {
        filter[at] = q->filter[at];
        filter[at].code = code_of(filter[at], wrong);
        if (!is_code(filter[at].code) || !instruction_taken(filter[at], length - at - 1, wrong)) return false;
    }
    if (BPF_CLASS(filter[length - 1].code) != BPF_RET && wrong != NO_RETURN) return false;
    return scratch_taken(filter, length, wrong);
}

// ---- the machine

static uint32_t word_of(const call *made, uint32_t offset, unsigned wrong) {
    uint32_t place = offset / 4;
    if (place == 0) return made->nr;
    if (place == 1) return made->arch;
    if (place < 4) return wrong == POINTER_ZERO ? 0 : made->instruction_pointer >> 32 * (place % 2);
    return made->args[place / 2 - 2] >> 32 * ((place + (wrong == HALVES_SWAPPED)) % 2);
}

// the run ends where there is no result
static bool compute(uint16_t operation, uint32_t a, uint32_t b, unsigned wrong, uint32_t *result) {
    switch (operation) {
    case BPF_ADD: *result = a + b; return true;
    case BPF_SUB: *result = wrong == SUBTRACTION_TURNED ? b - a : a - b; return true;
    case BPF_MUL: *result = a * b; return true;
    case BPF_DIV: *result = b == 0 ? 0 : a / b; return b != 0 || wrong == DIVISION_GOES_ON;
    case BPF_OR: *result = a | b; return true;
    case BPF_AND: *result = a & b; return true;
    case BPF_LSH: *result = b >= 32 && wrong == SHIFT_LEFT_FAR ? 0 : a << b % 32; return true;
    case BPF_RSH:
        *result = b >= 32 && wrong == SHIFT_RIGHT_FAR ? 0 : wrong == SHIFT_SIGNED ? (uint32_t)((int32_t)a >> b % 32) : a >> b % 32;
        return true;
    case BPF_XOR: *result = a ^ b; return true;
    default: *result = wrong == NEGATION_BITWISE ? ~a : -a; return true;
    }
}

static bool holds(uint16_t test, uint32_t a, uint32_t b, unsigned wrong) {
    switch (test) {
    case BPF_JEQ: return a == b;
    case BPF_JGT: return wrong == GREATER_OR_EQUAL ? a >= b : a > b;
    case BPF_JGE: return wrong == COMPARED_SIGNED ? (int32_t)a >= (int32_t)b : a >= b;
    default: return ((a & b) != 0) == (wrong != SET_INVERTED);
    }
}

static void count(instruction i, uint32_t operand, bool jumped) {
    covered.executed[i.code % 256]++;
    covered.jumped[i.code % 256] += jumped;
    if (i.code == (BPF_ALU | BPF_DIV | BPF_X)) covered.divided_by_zero += operand == 0;
    if (i.code == (BPF_ALU | BPF_LSH | BPF_X) || i.code == (BPF_ALU | BPF_RSH | BPF_X)) covered.shifted_far += operand >= 32;
}

// of a filter that is taken
callfilter_outcome model_run(const question *q, const call *made, unsigned wrong) {
    uint32_t a = 0, x = wrong == START_LENGTH ? 64 : 0, scratch[WORDS] = {0};
    uint32_t length = wrong == LENGTH_ZERO ? 0 : 64;
    for (uint32_t at = 0, steps = 1; at < q->length; at++, steps++) {
        instruction i = q->filter[at];
        uint32_t operand = BPF_SRC(i.code) == BPF_X ? x : i.k;
        bool jumped = false;
        switch (BPF_CLASS(i.code)) {
        case BPF_LD:
            a = BPF_MODE(i.code) == BPF_ABS ? word_of(made, i.k, wrong)
                : BPF_MODE(i.code) == BPF_MEM ? scratch[i.k]
                : BPF_MODE(i.code) == BPF_LEN ? length : i.k;
            break;
        case BPF_LDX: x = BPF_MODE(i.code) == BPF_MEM ? scratch[i.k] : BPF_MODE(i.code) == BPF_LEN ? length : i.k; break;
        case BPF_ST: scratch[i.k] = a; break;
        case BPF_STX: scratch[i.k] = wrong == STORE_A ? a : x; break;
        case BPF_ALU:
            if (!compute(BPF_OP(i.code), a, operand, wrong, &a)) {
                if (wrong == NONE) count(i, operand, false);
                return (callfilter_outcome){0, 0, steps};
            }
            break;
        case BPF_JMP:
            jumped = BPF_OP(i.code) != BPF_JA && holds(BPF_OP(i.code), a, operand, wrong);
            at += BPF_OP(i.code) == BPF_JA ? i.k - (i.k > 0 && wrong == JUMP_ONE_SHORT) : jumped ? i.jt : i.jf;
            break;
        case BPF_RET:
            if (wrong == NONE) count(i, operand, false);
            return (callfilter_outcome){0, BPF_RVAL(i.code) == BPF_A ? a : i.k, steps};
        default:
            if (BPF_MISCOP(i.code) == BPF_TAX) x = a;
            else a = x;
        }
        if (wrong == NONE) count(i, operand, jumped);
    }
    return (callfilter_outcome){1, 0, 0};
}
