// Filters drawn in every way that matters to the kernel's checks: good ones of all lengths, ones broken in one thing, and ones left to
// chance. What the kernel says of them is not foreseen here.

#include "kernel.h"
#include <string.h>

#define LENGTH(list) (sizeof(list) / sizeof *(list))

enum { TAKEN_AT_MOST = 4096 };

enum way {
    GOOD, SCRATCH_AT_WILL, SOUP,
    UNKNOWN_CODE, JUMP_OUT, TRUE_OUT, FALSE_OUT, NO_RETURN, UNALIGNED, BEHIND_CALL, DIVIDED_BY_ZERO, SHIFTED_FAR, SCRATCH_INDEX,
    SCRATCH_UNWRITTEN, SCRATCH_BEHIND_RETURN, EMPTY, TOO_LONG, LAST_REACHED,
    LISTED,
};
_Static_assert((int)LISTED == (int)WAYS, "kernel.h says how many");

const char *const way_names[WAYS] = {
    "good", "scratch words at will", "random instructions",
    "unknown code", "jump out", "jump out if true", "jump out if false", "no return at the end", "load unaligned", "load behind the call",
    "constant division by 0", "constant shift too far", "scratch index", "scratch word unwritten", "scratch word behind a return", "empty",
    "too long", "jump to the last instruction",
};

// mostly short; the longest lengths that are taken more often than by chance
static unsigned draw_length(draw *d) {
    switch (draw_below(d, 40)) {
    case 0: return TAKEN_AT_MOST - draw_below(d, 2);
    case 1: return 1 + draw_below(d, TAKEN_AT_MOST);
    case 2:
    case 3: return 1 + draw_below(d, 1000);
    case 4:
    case 5:
    case 6:
    case 7:
    case 8:
    case 9: return 1 + draw_below(d, 200);
    default: return 1 + draw_below(d, 40);
    }
}

// a place to break: not where a scratch word is written, and not the last instruction where there is another
static unsigned draw_place(draw *d, const question *q) {
    unsigned at = 0;
    for (unsigned tried = 0; tried < 16 && q->length > 1; tried++) {
        at = draw_below(d, q->length - 1);
        if (BPF_CLASS(q->filter[at].code) != BPF_ST && BPF_CLASS(q->filter[at].code) != BPF_STX) break;
    }
    return at;
}

static uint16_t draw_unknown_code(draw *d) {
    // codes of classic BPF that a socket may use and seccomp does not take
    static const uint16_t others[] = {
        BPF_ALU | BPF_MOD | BPF_K, BPF_ALU | BPF_MOD | BPF_X, BPF_LD | BPF_H | BPF_ABS, BPF_LD | BPF_B | BPF_ABS, BPF_LD | BPF_W | BPF_IND,
        BPF_LD | BPF_H | BPF_IND, BPF_LD | BPF_B | BPF_IND, BPF_LDX | BPF_B | BPF_MSH, BPF_RET | BPF_X,
    };
    uint16_t code;
    do {
        switch (draw_below(d, 4)) {
        case 0: code = others[draw_below(d, LENGTH(others))]; break;
        case 1: code = codes[draw_below(d, CODES)] ^ 1u << draw_below(d, 16); break;
        case 2: code = draw_below(d, 256); break;
        default: code = draw_bits(d);
        }
    } while (is_code(code));
    return code;
}

// at or above a small bound: next to it, next to where 32 bits end, or anywhere between
static uint32_t draw_over(draw *d, uint32_t bound) {
    switch (draw_below(d, 4)) {
    case 0: return bound;
    case 1: return bound + 1 + draw_below(d, 8);
    case 2: return bound + draw_below(d, UINT32_MAX - bound);
    default: return UINT32_MAX - draw_below(d, 5000);
    }
}

static uint16_t draw_of_codes(draw *d, const uint16_t *list, unsigned length) { return list[draw_below(d, length)]; }

static uint16_t draw_no_return(draw *d) {
    uint16_t code;
    do code = codes[draw_below(d, CODES)];
    while (BPF_CLASS(code) == BPF_RET);
    return code;
}

static uint16_t draw_test(draw *d) { return codes[CODES - 8 + draw_below(d, 8)]; }

// A conditional jump with one way out of the filter, the other to the next instruction.
static void put_out(draw *d, question *q, bool if_true) {
    unsigned left = 1 + draw_below(d, q->length < 256 ? q->length : 256);
    if (q->length > 1 && left == 1) left = 2;
    uint8_t far = left - 1 + (draw_chance(d, 2) ? 0 : draw_below(d, 257 - left));
    q->filter[q->length - left] = (instruction){draw_test(d), if_true ? far : 0, if_true ? 0 : far, draw_word(d)};
}

// A scratch word that is read at the start and written before on no way or on one way only.
static void put_unwritten(draw *d, question *q) {
    static const uint16_t reads[] = {BPF_LD | BPF_MEM, BPF_LDX | BPF_MEM}, writes[] = {BPF_ST, BPF_STX};
    uint32_t word = draw_below(d, 16);
    instruction read = {draw_of_codes(d, reads, 2), 0, 0, word}, write = {draw_of_codes(d, writes, 2), 0, 0, word};
    instruction *first = q->filter;
    switch (q->length < 4 ? 0 : draw_below(d, 5)) {
    case 0: first[0] = read; break;
    case 1: first[0] = (instruction){draw_test(d), 0, 1, draw_word(d)}; first[1] = write; first[2] = read; break;
    case 2: first[0] = (instruction){draw_test(d), 1, 0, draw_word(d)}; first[1] = write; first[2] = read; break;
    case 3: first[0] = (instruction){BPF_JMP | BPF_JA, 0, 0, 1}; first[1] = write; first[2] = read; break;
    default: first[0] = write; first[1] = read; first[1].k = (word + 1 + draw_below(d, 15)) % 16;
    }
}

static void put_soup(draw *d, question *q) {
    q->length = 1 + draw_below(d, draw_chance(d, 2) ? 3 : 20);
    for (unsigned at = 0; at < q->length; at++) {
        instruction *i = &q->filter[at];
        i->code = draw_chance(d, 8) ? draw_bits(d) : codes[draw_below(d, CODES)];
        i->jt = draw_chance(d, 3) ? draw_bits(d) : draw_below(d, 3);
        i->jf = draw_chance(d, 3) ? draw_bits(d) : draw_below(d, 3);
        i->k = draw_chance(d, 2) ? draw_below(d, 18) : draw_word(d);
    }
    if (!draw_chance(d, 4)) q->filter[q->length - 1].code = BPF_RET | BPF_K;
}

// One thing of a good filter, made bad.
static void put_broken(draw *d, question *q, enum way way) {
    static const uint16_t shifts[] = {BPF_ALU | BPF_LSH | BPF_K, BPF_ALU | BPF_RSH | BPF_K};
    static const uint16_t scratch[] = {BPF_ST, BPF_STX, BPF_LD | BPF_MEM, BPF_LDX | BPF_MEM};
    unsigned at = draw_place(d, q);
    instruction *i = &q->filter[at];
    switch (way) {
    case UNKNOWN_CODE: i->code = draw_unknown_code(d); break;
    case JUMP_OUT: *i = (instruction){BPF_JMP | BPF_JA, 0, 0, draw_over(d, q->length - at - 1)}; break;
    case TRUE_OUT: put_out(d, q, true); break;
    case FALSE_OUT: put_out(d, q, false); break;
    case NO_RETURN: q->filter[q->length - 1].code = draw_no_return(d); break;
    case UNALIGNED: *i = (instruction){codes[0], 0, 0, 4 * draw_below(d, 16) + 1 + draw_below(d, 3)}; break;
    case BEHIND_CALL: *i = (instruction){codes[0], 0, 0, draw_chance(d, 2) ? 64 : draw_over(d, 64) & ~3u}; break;
    case DIVIDED_BY_ZERO: *i = (instruction){BPF_ALU | BPF_DIV | BPF_K, 0, 0, 0}; break;
    case SHIFTED_FAR: *i = (instruction){draw_of_codes(d, shifts, LENGTH(shifts)), 0, 0, draw_over(d, 32)}; break;
    case SCRATCH_INDEX: *i = (instruction){draw_of_codes(d, scratch, LENGTH(scratch)), 0, 0, draw_over(d, 16)}; break;
    case SCRATCH_UNWRITTEN: put_unwritten(d, q); break;
    case SCRATCH_BEHIND_RETURN:
        q->filter[0] = (instruction){BPF_RET | BPF_K, 0, 0, draw_action(d)};
        if (q->length > 2) q->filter[1] = (instruction){draw_chance(d, 2) ? BPF_LD | BPF_MEM : BPF_LDX | BPF_MEM, 0, 0, draw_below(d, 16)};
        break;
    case LAST_REACHED: *i = (instruction){BPF_JMP | BPF_JA, 0, 0, q->length > 1 ? q->length - at - 2 : 0}; break;
    default: break;
    }
}

static enum way draw_way(draw *d) {
    static const uint8_t weights[WAYS] = {[GOOD] = 50, [SCRATCH_AT_WILL] = 10, [SOUP] = 6, [SCRATCH_UNWRITTEN] = 4, [EMPTY] = 1};
    for (;;) {
        enum way way = draw_below(d, WAYS);
        if (draw_below(d, 50) < (weights[way] ? weights[way] : 3)) return way;
    }
}

unsigned draw_question(draw *d, question *q, bool other_architecture) {
    enum { CALLS_EACH = 16 };
    enum way way = draw_way(d);
    unsigned length = draw_length(d);
    if (way == SCRATCH_AT_WILL) length = 2 + draw_below(d, 14);
    if (way == TOO_LONG) length = TAKEN_AT_MOST + 1 + (draw_chance(d, 2) ? 0 : draw_below(d, LONGEST - TAKEN_AT_MOST));
    draw_filter(d, q, length, way != SCRATCH_AT_WILL);
    if (way == SOUP) put_soup(d, q);
    if (way > SOUP) put_broken(d, q, way);
    if (way == EMPTY) q->length = 0;
    draw_calls(d, q, CALLS_EACH, other_architecture);
    return way;
}
