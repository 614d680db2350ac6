// A host in C around the proved JSON reader: it answers the texts that it is given, and looks at every byte that was not to be touched.
// Text, table and buffers each end where readable memory ends, so that one byte too far stops the program.
//
// Standard input: the table (length, slots), then frames of (architecture, scratch length, out length, text length, text). Standard output,
// for each: (code, at, count, end), as the answer lies in memory, and if the code is 0 the named sets and, for each of them as
// callfilter_next_set gives it, the place, the answer of compiling its set and the filter; then the place that says that none is left.

#define _DEFAULT_SOURCE
#include <stdint.h>
#include <stdio.h>
#include <stdlib.h>
#include <string.h>
#include <sys/mman.h>

#include "callfilter.h"

enum { AREA = 16 << 20, PAGE = 1 << 16, IN_FRONT = 64, LONGEST_FILTER = 8 * 4096 };

static void stop(const char *why) {
    fprintf(stderr, "host: %s\n", why);
    abort();
}

// the end of an area behind which nothing can be read or written
static uint8_t *end_of_area(void) {
    uint8_t *area = mmap(NULL, AREA + PAGE, PROT_READ | PROT_WRITE, MAP_PRIVATE | MAP_ANONYMOUS, -1, 0);
    if (area == MAP_FAILED || mprotect(area + AREA, PAGE, PROT_NONE) != 0) stop("no memory");
    return area + AREA;
}

// differs from byte to byte and from frame to frame, so that no constant written is the byte that was there every time
static uint8_t pattern(size_t at, uint32_t frame) { return (uint8_t)(at * 7 + frame * 11 + (at >> 8) + 0xa5); }

static void fill(uint8_t *place, size_t size, uint32_t frame) {
    for (size_t at = 0; at < size; at++) place[at] = pattern(at, frame);
}

static void look(const uint8_t *place, size_t from, size_t to, uint32_t frame, const char *why) {
    for (size_t at = from; at < to; at++)
        if (place[at] != pattern(at, frame)) stop(why);
}

static void read_whole(void *place, size_t size) {
    if (fread(place, 1, size, stdin) != size) stop("a frame ends early");
}

static void write_whole(const void *place, size_t size) {
    if (size != 0 && fwrite(place, 1, size, stdout) != size) stop("standard output");
}

// every named set, and that its name is found where it was met
static void walk(const uint8_t *sets, size_t size) {
    static uint8_t filter[LONGEST_FILTER];
    for (uint32_t at = 0;;) {
        callfilter_named place = callfilter_next_set(sets, size, at);
        write_whole(&place, sizeof place);
        if (place.code != 0) return;
        callfilter_named found = callfilter_find_set(sets, size, sets + place.name, place.name_len);
        if (memcmp(&found, &place, sizeof place) != 0) stop("a set is not found by its name");
        callfilter_answer answer = callfilter_compile(sets + place.set, place.set_len, filter, sizeof filter);
        write_whole(&answer, sizeof answer);
        if (answer.code == 0) write_whole(filter, 8 * (size_t)answer.count);
        at = place.next;
    }
}

int main(void) {
    uint8_t *text_end = end_of_area(), *table_end = end_of_area(), *scratch_end = end_of_area(), *out_end = end_of_area();
    uint8_t *text_copy = malloc(AREA), *table_copy = malloc(AREA);
    if (text_copy == NULL || table_copy == NULL) stop("no memory");
    uint32_t table_len;
    read_whole(&table_len, 4);
    if (table_len > AREA) stop("the table is too large for this program");
    uint8_t *table = table_end - table_len;
    read_whole(table, table_len);
    memcpy(table_copy, table, table_len);

    uint32_t head[4];
    for (uint32_t frame = 0; fread(head, 1, 4, stdin) == 4; frame++) {
        read_whole(&head[1], 12);
        size_t scratch_len = head[1], out_len = head[2], text_len = head[3];
        if (text_len > AREA || scratch_len > AREA - IN_FRONT || out_len > AREA - IN_FRONT) stop("a frame is too large for this program");
        uint8_t *text = text_end - text_len, *scratch = scratch_end - scratch_len, *out = out_end - out_len;
        read_whole(text, text_len);
        memcpy(text_copy, text, text_len);
        fill(scratch - IN_FRONT, IN_FRONT, frame);
        fill(out - IN_FRONT, IN_FRONT + out_len, frame);

        callfilter_json answer = callfilter_read_json(text, text_len, table, table_len, head[0], scratch, scratch_len, out, out_len);

        size_t written = answer.code == 0 ? answer.end : 0;
        if (written > out_len) stop("the sets are longer than the buffer");
        if (memcmp(text_copy, text, text_len) != 0) stop("the text was changed");
        if (memcmp(table_copy, table, table_len) != 0) stop("the table was changed");
        look(scratch - IN_FRONT, 0, IN_FRONT, frame, "a byte in front of scratch was changed");
        look(out - IN_FRONT, 0, IN_FRONT, frame, "a byte in front of the buffer was changed");
        const char *why = answer.code == 0 ? "a byte behind the sets was changed" : "a refusal changed a byte";
        look(out - IN_FRONT, IN_FRONT + written, IN_FRONT + out_len, frame, why);
        write_whole(&answer, sizeof answer);
        write_whole(out, written);
        if (answer.code == 0) walk(out, written);
    }
    return fflush(stdout) == 0 ? 0 : 1;
}
