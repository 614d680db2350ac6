// A host in C around the proved compiler: it answers the oracle's frames, so that both can be given the same sets, and looks at every byte
// that the compiler was not to touch. Set and buffer each end where readable memory ends, so that one byte too far stops the program.
//
// Standard input: frames of (set length, room, set). Standard output, for each: (code, count, entry, rule, condition), which is how the
// answer lies in memory, and, if the code is 0, the filter. With the word 'search' it compiles into the other form.

#define _DEFAULT_SOURCE
#include <stdint.h>
#include <stdio.h>
#include <stdlib.h>
#include <string.h>
#include <sys/mman.h>

#include "callfilter.h"

enum { AREA = 4 << 20, PAGE = 1 << 16, IN_FRONT = 64 };

static void stop(const char *why) {
    fprintf(stderr, "host: %s\n", why);
    abort();
}

// the end of an area behind which nothing can be read or written
static uint8_t *end_of_area(void) {
    uint8_t *area = mmap(NULL, AREA + PAGE, PROT_READ | PROT_WRITE, MAP_PRIVATE | MAP_ANONYMOUS, -1, 0);
    if (area == MAP_FAILED || mprotect(area + AREA, PAGE, PROT_NONE) != 0) stop("no memory");
    return area + AREA;
}

// differs from byte to byte and from frame to frame, so that no constant written is the byte that was there every time
static uint8_t pattern(size_t at, uint32_t frame) { return (uint8_t)(at * 7 + frame * 11 + (at >> 8) + 0xa5); }

static void read_whole(void *place, size_t size) {
    if (fread(place, 1, size, stdin) != size) stop("a frame ends early");
}

static void write_whole(const void *place, size_t size) {
    if (fwrite(place, 1, size, stdout) != size) stop("standard output");
}

int main(int count, char **words) {
    bool search = count == 2 && strcmp(words[1], "search") == 0;
    if (count != 1 && !search) stop("usage: host [search]");
    uint8_t *set_end = end_of_area(), *out_end = end_of_area(), *copy = malloc(AREA);
    if (copy == NULL) stop("no memory");
    uint32_t head[2];
    for (uint32_t frame = 0; fread(head, 1, 4, stdin) == 4; frame++) {
        read_whole(&head[1], 4);
        size_t size = head[0], room = head[1];
        if (size > AREA || room > AREA - IN_FRONT) stop("a frame is too large for this program");
        uint8_t *set = set_end - size, *out = out_end - room, *front = out - IN_FRONT;
        read_whole(set, size);
        memcpy(copy, set, size);
        for (size_t at = 0; at < IN_FRONT + room; at++) front[at] = pattern(at, frame);

        callfilter_answer answer = search ? callfilter_compile_search(set, size, out, room) : callfilter_compile(set, size, out, room);

        size_t written = answer.code == 0 ? 8 * (size_t)answer.count : 0;
        if (written > room) stop("the filter is longer than the buffer");
        if (memcmp(copy, set, size) != 0) stop("the set was changed");
        for (size_t at = 0; at < IN_FRONT; at++)
            if (front[at] != pattern(at, frame)) stop("a byte in front of the buffer was changed");
        for (size_t at = IN_FRONT + written; at < IN_FRONT + room; at++)
            if (front[at] != pattern(at, frame)) stop(answer.code == 0 ? "a byte behind the filter was changed" : "a refusal changed a byte");
        write_whole(&answer, sizeof answer);
        write_whole(out, written);
    }
    return fflush(stdout) == 0 ? 0 : 1;
}
