// Random filters that the kernel takes, and random calls. A filter's constants and its calls' arguments come from the same few values, so
// that comparisons come out both ways; most filters end in turning what they computed into an errno, so that it can be seen from outside.

#include "kernel.h"
#include <string.h>

#define LENGTH(list) (sizeof(list) / sizeof *(list))

const uint16_t codes[CODES] = {
    BPF_LD | BPF_W | BPF_ABS, BPF_LD | BPF_W | BPF_LEN, BPF_LD | BPF_IMM, BPF_LD | BPF_MEM,
    BPF_LDX | BPF_W | BPF_LEN, BPF_LDX | BPF_IMM, BPF_LDX | BPF_MEM,
    BPF_ST, BPF_STX, BPF_MISC | BPF_TAX, BPF_MISC | BPF_TXA, BPF_ALU | BPF_NEG,
    BPF_JMP | BPF_JA, BPF_RET | BPF_K, BPF_RET | BPF_A,
    BPF_ALU | BPF_ADD | BPF_K, BPF_ALU | BPF_ADD | BPF_X, BPF_ALU | BPF_SUB | BPF_K, BPF_ALU | BPF_SUB | BPF_X,
    BPF_ALU | BPF_MUL | BPF_K, BPF_ALU | BPF_MUL | BPF_X, BPF_ALU | BPF_DIV | BPF_K, BPF_ALU | BPF_DIV | BPF_X,
    BPF_ALU | BPF_OR | BPF_K, BPF_ALU | BPF_OR | BPF_X, BPF_ALU | BPF_AND | BPF_K, BPF_ALU | BPF_AND | BPF_X,
    BPF_ALU | BPF_LSH | BPF_K, BPF_ALU | BPF_LSH | BPF_X, BPF_ALU | BPF_RSH | BPF_K, BPF_ALU | BPF_RSH | BPF_X,
    BPF_ALU | BPF_XOR | BPF_K, BPF_ALU | BPF_XOR | BPF_X,
    BPF_JMP | BPF_JEQ | BPF_K, BPF_JMP | BPF_JEQ | BPF_X, BPF_JMP | BPF_JGT | BPF_K, BPF_JMP | BPF_JGT | BPF_X,
    BPF_JMP | BPF_JGE | BPF_K, BPF_JMP | BPF_JGE | BPF_X, BPF_JMP | BPF_JSET | BPF_K, BPF_JMP | BPF_JSET | BPF_X,
};

bool is_code(uint16_t code) {
    for (unsigned at = 0; at < CODES; at++)
        if (codes[at] == code) return true;
    return false;
}

// ---- numbers

// splitmix64
uint64_t draw_bits(draw *d) {
    uint64_t mixed = d->state += 0x9e3779b97f4a7c15;
    mixed = (mixed ^ mixed >> 30) * 0xbf58476d1ce4e5b9;
    mixed = (mixed ^ mixed >> 27) * 0x94d049bb133111eb;
    return mixed ^ mixed >> 31;
}

uint32_t draw_below(draw *d, uint32_t bound) { return draw_bits(d) % bound; }

bool draw_chance(draw *d, uint32_t one_in) { return draw_below(d, one_in) == 0; }

static uint32_t draw_edge(draw *d) {
    static const uint32_t edges[] = {
        0, 1, 2, 31, 32, 33, 63, 64, 255, 256, 4095, 0xffff, 0x10000, 0x7fffffff, 0x80000000, 0x80000001, 0xfffffffe, 0xffffffff,
        AUDIT_ARCH_X86_64, AUDIT_ARCH_I386,
    };
    return edges[draw_below(d, LENGTH(edges))];
}

static uint32_t draw_any(draw *d) { return (uint32_t)draw_bits(d) >> draw_below(d, 32); }

uint32_t draw_word(draw *d) {
    switch (draw_below(d, 6)) {
    case 0: return draw_any(d);
    case 1: return draw_edge(d);
    case 2: return d->value[draw_below(d, LENGTH(d->value))] + draw_below(d, 3) - 1;
    default: return d->value[draw_below(d, LENGTH(d->value))];
    }
}

// every index has a sequence of its own, so that one can be drawn again without the others
draw draw_of(uint64_t seed, uint64_t index) {
    draw start = {.state = (seed << 32) + index};
    draw d = {.state = draw_bits(&start)};
    for (unsigned at = 0; at < LENGTH(d.value); at++) d.value[at] = draw_chance(&d, 2) ? draw_edge(&d) : draw_any(&d);
    return d;
}

// mostly an errno, since that is seen best; also every other action, and words that are no action
uint32_t draw_action(draw *d) {
    static const uint32_t others[] = {
        SECCOMP_RET_KILL_PROCESS, SECCOMP_RET_KILL_THREAD, SECCOMP_RET_TRAP, SECCOMP_RET_USER_NOTIF, SECCOMP_RET_TRACE, SECCOMP_RET_LOG,
        SECCOMP_RET_ALLOW, 0x00040000, 0x00060000, 0x90000000, 0xffff0000,
    };
    if (draw_chance(d, 5)) return others[draw_below(d, LENGTH(others))] | (draw_chance(d, 2) ? 0 : draw_below(d, 0x10000));
    return SECCOMP_RET_ERRNO | (draw_chance(d, 4) ? draw_below(d, 0x10000) : draw_below(d, 0x1001));
}

// ---- a filter

// the filter in the making: where its ending starts, which scratch words are written, and what jumps leave for each place ahead
typedef struct {
    draw *d;
    question *q;
    unsigned at, ending;
    bool careful;
    uint16_t written, ahead[LONGEST];
} making;

static void put(making *m, uint16_t code, uint8_t jt, uint8_t jf, uint32_t k) {
    m->q->filter[m->at] = (instruction){code, jt, jf, k};
    m->written &= m->ahead[m->at++];
    if (BPF_CLASS(code) == BPF_ST || BPF_CLASS(code) == BPF_STX) m->written |= 1u << k % 16;
    if (BPF_CLASS(code) == BPF_JMP) {
        bool always = code == (BPF_JMP | BPF_JA);
        m->ahead[m->at + (always ? k : jt)] &= m->written;
        m->ahead[m->at + (always ? k : jf)] &= m->written;
        m->written = 0xffff;
    }
}

// how far a jump goes from here: mostly a few instructions, mostly not into the ending
static uint32_t draw_distance(making *m, uint32_t most) {
    uint32_t last = draw_chance(m->d, 12) ? m->q->length - 1 : m->ending;
    uint32_t limit = last - (m->at + 1);
    if (limit > most) limit = most;
    switch (draw_below(m->d, 8)) {
    case 0: return draw_below(m->d, limit + 1);
    case 1: return draw_chance(m->d, 4) ? limit : 0;
    default: return draw_below(m->d, limit < 4 ? limit + 1 : 4);
    }
}

// a scratch word that may be read here; 16: there is none
static uint32_t draw_written(making *m) {
    uint16_t written = m->written & m->ahead[m->at];
    uint32_t k = draw_below(m->d, m->careful ? 16 : 3);
    for (unsigned tried = 0; m->careful && tried < 16; tried++, k = (k + 1) % 16)
        if (written >> k & 1) return k;
    return m->careful ? 16 : k;
}

static void put_load(making *m, uint16_t code) {
    uint32_t word = draw_written(m);
    if (code == (BPF_LD | BPF_W | BPF_ABS)) put(m, code, 0, 0, 4 * draw_below(m->d, 16));
    else if (BPF_MODE(code) == BPF_IMM) put(m, code, 0, 0, draw_word(m->d));
    else if (BPF_MODE(code) != BPF_MEM) put(m, code, 0, 0, 0);
    else if (word < 16) put(m, code, 0, 0, word);
    else put(m, BPF_CLASS(code) | BPF_IMM, 0, 0, draw_word(m->d));
}

static void put_arithmetic(making *m, uint16_t code) {
    uint16_t operation = BPF_OP(code);
    bool shifts = operation == BPF_LSH || operation == BPF_RSH;
    uint32_t k = shifts ? draw_below(m->d, 32) : draw_word(m->d);
    if (operation == BPF_DIV && k == 0) k = 1;
    // a division by 0 ends the run, so one by the index register is mostly made to have something to divide by
    if (code == (BPF_ALU | BPF_DIV | BPF_X) && m->at + 1 < m->ending && !draw_chance(m->d, 6)) put(m, BPF_LDX | BPF_IMM, 0, 0, k);
    if (shifts && BPF_SRC(code) == BPF_X && m->at + 1 < m->ending && !draw_chance(m->d, 3))
        put(m, BPF_LDX | BPF_IMM, 0, 0, draw_below(m->d, 70));
    put(m, code, 0, 0, k);
}

static uint16_t draw_code(making *m) {
    static const uint16_t scratch[] = {BPF_ST, BPF_STX, BPF_LD | BPF_MEM, BPF_LDX | BPF_MEM, BPF_JMP | BPF_JA};
    if (!m->careful && draw_chance(m->d, 2)) return scratch[draw_below(m->d, LENGTH(scratch))];
    return draw_chance(m->d, 4) ? BPF_LD | BPF_W | BPF_ABS : codes[draw_below(m->d, CODES)];
}

static void put_any(making *m) {
    uint16_t code = draw_code(m);
    switch (BPF_CLASS(code)) {
    case BPF_LD:
    case BPF_LDX: put_load(m, code); break;
    case BPF_ST:
    case BPF_STX: put(m, code, 0, 0, draw_below(m->d, draw_chance(m->d, 2) ? 16 : 3)); break;
    case BPF_ALU: put_arithmetic(m, code); break;
    case BPF_MISC: put(m, code, 0, 0, 0); break;
    case BPF_RET:
        if (draw_chance(m->d, 4)) put(m, code, 0, 0, draw_action(m->d));
        else put(m, BPF_LD | BPF_W | BPF_ABS, 0, 0, 4 * draw_below(m->d, 16));
        break;
    default:
        if (code == (BPF_JMP | BPF_JA)) put(m, code, 0, 0, draw_distance(m, LONGEST));
        else {
            uint8_t jt = draw_distance(m, 255), jf = draw_distance(m, 255);
            put(m, code, jt, jf, draw_word(m->d));
        }
    }
}

enum { ENDING = 5 };

// The accumulator, mostly with the index register or a scratch word in it, as an errno: twelve of its bits, or all of them stirred.
static void put_ending(making *m) {
    uint32_t word = draw_written(m);
    switch (draw_below(m->d, 4)) {
    case 0: put(m, BPF_ALU | BPF_XOR | BPF_X, 0, 0, 0); break;
    case 1: put(m, BPF_MISC | BPF_TXA, 0, 0, 0); break;
    case 2:
        if (word < 16) {
            put(m, BPF_LD | BPF_MEM, 0, 0, word);
            break;
        } // fall through
    default: put(m, BPF_ALU | BPF_XOR | BPF_K, 0, 0, draw_word(m->d));
    }
    if (draw_chance(m->d, 3)) {
        put(m, BPF_ALU | BPF_RSH | BPF_K, 0, 0, draw_below(m->d, 32));
        put(m, BPF_ALU | BPF_AND | BPF_K, 0, 0, MOST_ERRNO);
    } else {
        put(m, BPF_ALU | BPF_MUL | BPF_K, 0, 0, (uint32_t)draw_bits(m->d) | 1);
        put(m, BPF_ALU | BPF_RSH | BPF_K, 0, 0, 20);
    }
    put(m, BPF_ALU | BPF_OR | BPF_K, 0, 0, SECCOMP_RET_ERRNO);
    put(m, BPF_RET | BPF_A, 0, 0, 0);
}

// what an instruction does not look at may hold anything
static void put_junk(draw *d, question *q) {
    for (unsigned at = 0; at < q->length; at++) {
        instruction *i = &q->filter[at];
        bool jumps = BPF_CLASS(i->code) == BPF_JMP, by_x = BPF_CLASS(i->code) == BPF_ALU && BPF_SRC(i->code) == BPF_X;
        if (!jumps || i->code == (BPF_JMP | BPF_JA)) i->jt = draw_bits(d), i->jf = draw_bits(d);
        if (by_x || i->code == (BPF_RET | BPF_A) || BPF_CLASS(i->code) == BPF_MISC || i->code == (BPF_ALU | BPF_NEG)) i->k = draw_word(d);
        if (BPF_CLASS(i->code) <= BPF_LDX && BPF_MODE(i->code) == BPF_LEN) i->k = draw_word(d);
    }
}

// A filter that the kernel takes; if it is not drawn with care, it may read scratch words that were not written.
void draw_filter(draw *d, question *q, unsigned length, bool careful) {
    static making m;
    m.d = d;
    m.q = q;
    m.at = 0;
    m.careful = careful;
    m.written = 0;
    memset(m.ahead, 0xff, sizeof m.ahead);
    q->length = length;
    bool plain = length < 2 + ENDING || draw_chance(d, 12);
    m.ending = plain ? length - 1 : length - ENDING;
    while (m.at < m.ending) put_any(&m);
    if (!plain) put_ending(&m);
    else if (draw_chance(d, 2)) put(&m, BPF_RET | BPF_A, 0, 0, 0);
    else put(&m, BPF_RET | BPF_K, 0, 0, draw_action(d));
    if (draw_chance(d, 4)) put_junk(d, q);
}

// ---- calls

static uint64_t draw_argument(draw *d) {
    uint64_t low = draw_word(d);
    switch (draw_below(d, 5)) {
    case 0: return low;
    case 1: return low << 32;
    case 2: return draw_bits(d) >> draw_below(d, 64);
    default: return low | (uint64_t)draw_word(d) << 32;
    }
}

void draw_calls(draw *d, question *q, unsigned calls, bool other_architecture) {
    q->calls = calls;
    for (unsigned at = 0; at < calls; at++) {
        call *made = &q->call[at];
        made->arch = other_architecture && draw_chance(d, 8) ? AUDIT_ARCH_I386 : AUDIT_ARCH_X86_64;
        do made->nr = draw_chance(d, 3) ? draw_below(d, 512) : draw_word(d);
        while (is_left_out(made->nr));
        made->instruction_pointer = pointer_of(made->arch, draw_below(d, 256));
        for (unsigned index = 0; index < 6; index++) {
            uint64_t argument = draw_argument(d);
            made->args[index] = made->arch == AUDIT_ARCH_I386 ? (uint32_t)argument : argument;
        }
    }
}
