// What the files of this test share: filters with calls for them, which the proved functions and the kernel are asked about.

#ifndef KERNEL_H
#define KERNEL_H

#include "callfilter.h"
#include <linux/audit.h>
#include <linux/filter.h>
#include <linux/seccomp.h>
#include <stdbool.h>
#include <stddef.h>
#include <stdint.h>

typedef struct sock_filter instruction;
typedef struct seccomp_data call;

enum {
    LONGEST = 8192,      // instructions of a filter here; the kernel takes 4,096
    MOST_CALLS = 64,     // for one filter
    BATCH = 32,          // filters that the kernel is asked about at a time
    MOST_DEATHS = 3,     // for one filter: each costs a process, so the calls that are left are not made, unless it is about deaths
    GUARD_ERRNO = 4000,  // what a call gives that the filter under test would let through
    MOST_ERRNO = 4095,
    DIED = INT32_MIN,    // the process was killed
};

// A filter and calls for it, and what the kernel made of them.
typedef struct {
    uint32_t length, calls;
    instruction filter[LONGEST];
    call call[MOST_CALLS];
    bool about_deaths;         // all calls are made, whatever they cost
    int32_t taken;             // what seccomp(2) returned: 0, or an errno below 0
    uint32_t made, deaths;     // calls that were made, and how many of them killed
    int32_t seen[MOST_CALLS];  // what each gave: 0, an errno below 0, or DIED
} question;

// Lies in memory that is shared with the child processes.
typedef struct {
    uint32_t count;
    volatile uint32_t at;    // the question that is being asked
    volatile int32_t stage;  // how far the child got
    question question[BATCH];
} batch;

// ---- child.c: the kernel

batch *kernel_ready(void);       // says why, and ends the program, where seccomp cannot be asked
bool kernel_has_32_bit_calls(void);
void kernel_asked(batch *asked);
uint64_t pointer_of(uint32_t architecture, unsigned slot);  // the instruction pointer that a call made in that slot shows
bool is_left_out(uint32_t number);
extern uint64_t processes;

// ---- draw.c and broken.c: random filters and calls

typedef struct { uint64_t state; uint32_t value[8]; } draw;
draw draw_of(uint64_t seed, uint64_t index);
uint64_t draw_bits(draw *d);
uint32_t draw_below(draw *d, uint32_t bound);
bool draw_chance(draw *d, uint32_t one_in);
uint32_t draw_word(draw *d);
uint32_t draw_action(draw *d);
void draw_filter(draw *d, question *q, unsigned length, bool careful);
void draw_calls(draw *d, question *q, unsigned calls, bool other_architecture);
bool is_code(uint16_t code);
enum { CODES = 41 };
extern const uint16_t codes[CODES];

enum { WAYS = 18 };
extern const char *const way_names[WAYS];
unsigned draw_question(draw *d, question *q, bool other_architecture);  // the way in which it was drawn

// ---- model.c: the checks and the machine in plain C, right or wrong in one way

enum { WRONGS = 33 };
extern const char *const wrong_names[WRONGS];  // the first is none
typedef struct { uint64_t executed[256], jumped[256], divided_by_zero, shifted_far; } coverage;
extern coverage covered;                       // by the model that is right
bool model_accepts(const question *q, unsigned wrong);
callfilter_outcome model_run(const question *q, const call *made, unsigned wrong);

// ---- compare.c

typedef struct {
    bool (*accepts)(const question *q, unsigned wrong);
    callfilter_outcome (*run)(const question *q, const call *made, unsigned wrong);
} judge;
extern const judge proved, model;
enum { AGREED = -2, ACCEPTANCE = -1 };
int32_t seen_of(uint32_t action);                               // what a call gives under the guard
int difference(const question *q, judge by, unsigned wrong);    // AGREED, ACCEPTANCE, or the place of a call
void show_difference(const question *q, int at, judge by, const char *name);
_Noreturn void fail(const char *why);                           // the whole test, where it cannot be made
bool ended_with(uint64_t passed, uint64_t failed);              // prints the last line

// ---- programs.c, sets.c, supervisor.c, native.c and stack.c: the parts, each ending with its line 'N passed, M failed'

bool compare_programs(batch *asked, uint64_t seed, uint64_t first, uint64_t count);
bool compare_sets(batch *asked, uint64_t seed, uint64_t first);
bool compare_supervisor(void);
bool compare_native(batch *asked);
bool compare_stack(void);

#endif
