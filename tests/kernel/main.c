// Holds the proved functions to the kernel of the machine it runs on.
//
//     compare programs SEED FIRST COUNT    random filters and calls, for callfilter_accepts and callfilter_run
//     compare sets SEED FIRST              rule sets and calls from standard input, for both forms of compiling and callfilter_decide
//     compare supervisor                   sets that hand calls to a supervisor
//     compare native                       sets for native numbers only, and numbers around the second table of x86_64
//     compare stack                        how many compiled filters a process may have

#include "kernel.h"
#include <stdio.h>
#include <stdlib.h>
#include <string.h>

int main(int count, char **words) {
    setvbuf(stdout, NULL, _IOLBF, 1 << 16);
    uint64_t seed = count > 2 ? strtoull(words[2], NULL, 10) : 0, first = count > 3 ? strtoull(words[3], NULL, 10) : 0;
    if (count == 5 && strcmp(words[1], "programs") == 0) return !compare_programs(kernel_ready(), seed, first, strtoull(words[4], NULL, 10));
    if (count == 4 && strcmp(words[1], "sets") == 0) return !compare_sets(kernel_ready(), seed, first);
    if (count == 2 && strcmp(words[1], "supervisor") == 0) return !compare_supervisor();
    if (count == 2 && strcmp(words[1], "native") == 0) return !compare_native(kernel_ready());
    if (count == 2 && strcmp(words[1], "stack") == 0) return !compare_stack();
    fail("usage: compare programs SEED FIRST COUNT, compare sets SEED FIRST, compare supervisor, compare native, or compare stack");
}
