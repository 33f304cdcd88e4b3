/* Carries out a list of calls (tools/replay.py says its form) from standard input on the station's library, and writes the answers. replay.mjs does the same. */
#include <stdio.h>
#include <stdlib.h>
#include <string.h>

#include "../include/station.h"

enum { END, PUT, FILL, CALL, SHOW };
enum { MEMORY = 1 << 20, ROOM = 1 << 24 };

static _Alignas(16) uint8_t memory[MEMORY];
static uint8_t answers[ROOM];
static size_t answered;
static const unsigned takes[] = {6, 9, 9, 7, 7, 7, 7, 7, 14, 15, 14, 14, 18, 15, 15, 13, 8, 9, 9, 9, 9, 16, 17, 16, 16, 20, 20, 21};

static void fail(const char *why) {
    fprintf(stderr, "replay: %s\n", why);
    exit(1);
}

static void need(void *to, size_t length) {
    if (fread(to, 1, length, stdin) != length) fail("the list ends within a step");
}

static uint32_t word(void) {
    uint32_t x;
    need(&x, sizeof x);
    return x;
}

static void answer(const void *from, size_t length) {
    if (length > ROOM - answered) fail("a case answers too much");
    memcpy(answers + answered, from, length);
    answered += length;
}

/* An address with as many bytes behind it. */
static uint8_t *at(uint64_t address, uint64_t length) {
    if (address > MEMORY || length > MEMORY - address) fail("an address outside the memory");
    return memory + address;
}

/* Slice i of the arguments, of bytes, of numbers and of offsets. */
#define BYTES(i) at(a[i], a[(i) + 1]), a[(i) + 1]
#define NUMBERS(i) (double *)at(a[i], 8 * a[(i) + 1]), a[(i) + 1]
#define OFFSETS(i) (uint64_t *)at(a[i], 8 * a[(i) + 1]), a[(i) + 1]
#define FOUR(i) NUMBERS(i), NUMBERS((i) + 2), NUMBERS((i) + 4), NUMBERS((i) + 6)

static uint64_t call(uint32_t number, const uint64_t *a) {
    switch (number) {
    case 0: return difficulty_open(BYTES(0), NUMBERS(2), NUMBERS(4));
    case 1: return difficulty_replace(BYTES(0), a[2], BYTES(3), NUMBERS(5), NUMBERS(7));
    case 2: return difficulty_insert(BYTES(0), a[2], BYTES(3), NUMBERS(5), NUMBERS(7));
    case 3: return difficulty_remove(BYTES(0), a[2], NUMBERS(3), NUMBERS(5));
    case 4: return difficulty_read_record(BYTES(0), NUMBERS(2), a[4], NUMBERS(5));
    case 5: return difficulty_read_values(BYTES(0), NUMBERS(2), a[4], NUMBERS(5));
    case 6: return difficulty_read_aim_parts(BYTES(0), NUMBERS(2), a[4], NUMBERS(5));
    case 7: return difficulty_read_rhythm(BYTES(0), NUMBERS(2), a[4], NUMBERS(5));
    case 8: return difficulty_totals(BYTES(0), NUMBERS(2), FOUR(4), NUMBERS(12));
    case 9: return difficulty_totals_to(BYTES(0), NUMBERS(2), a[4], FOUR(5), NUMBERS(13));
    case 10: return difficulty_totals_while_playing(BYTES(0), NUMBERS(2), NUMBERS(4), FOUR(6));
    case 11: return difficulty_counts(BYTES(0), NUMBERS(2), FOUR(4), NUMBERS(12));
    case 12: return difficulty_ratings(BYTES(0), NUMBERS(2), (uint32_t)a[4], (uint32_t)a[5], NUMBERS(6), FOUR(8), NUMBERS(16));
    case 13: return difficulty_replace_both(BYTES(0), BYTES(2), a[4], BYTES(5), FOUR(7));
    case 14: return difficulty_insert_both(BYTES(0), BYTES(2), a[4], BYTES(5), FOUR(7));
    case 15: return difficulty_remove_both(BYTES(0), BYTES(2), a[4], FOUR(5));
    case 16: return difficulty_open_as(BYTES(0), BYTES(2), NUMBERS(4), NUMBERS(6));
    case 17: return difficulty_read_record_as(BYTES(0), BYTES(2), NUMBERS(4), a[6], NUMBERS(7));
    case 18: return difficulty_read_values_as(BYTES(0), BYTES(2), NUMBERS(4), a[6], NUMBERS(7));
    case 19: return difficulty_read_aim_parts_as(BYTES(0), BYTES(2), NUMBERS(4), a[6], NUMBERS(7));
    case 20: return difficulty_read_rhythm_as(BYTES(0), BYTES(2), NUMBERS(4), a[6], NUMBERS(7));
    case 21: return difficulty_totals_as(BYTES(0), BYTES(2), NUMBERS(4), FOUR(6), NUMBERS(14));
    case 22: return difficulty_totals_to_as(BYTES(0), BYTES(2), NUMBERS(4), a[6], FOUR(7), NUMBERS(15));
    case 23: return difficulty_totals_while_playing_as(BYTES(0), BYTES(2), NUMBERS(4), NUMBERS(6), FOUR(8));
    case 24: return difficulty_counts_as(BYTES(0), BYTES(2), NUMBERS(4), FOUR(6), NUMBERS(14));
    case 26: return difficulty_rank(BYTES(0), OFFSETS(2), (uint32_t)a[4], (uint32_t)a[5], NUMBERS(6), NUMBERS(8), NUMBERS(10), FOUR(12));
    case 27: return difficulty_join(BYTES(0), OFFSETS(2), a[4], (uint32_t)a[5], (uint32_t)a[6], NUMBERS(7), NUMBERS(9), NUMBERS(11), FOUR(13));
    default: return difficulty_ratings_as(BYTES(0), BYTES(2), NUMBERS(4), (uint32_t)a[6], (uint32_t)a[7], NUMBERS(8), FOUR(10), NUMBERS(18));
    }
}

static void step(uint32_t what) {
    uint64_t a[21], r;
    uint32_t first = what == END ? 0 : word(), second = what == END || what == CALL ? 0 : word();
    double x;
    switch (what) {
    case END:
        first = (uint32_t)answered;
        if (fwrite(&first, 4, 1, stdout) != 1 || fwrite(answers, 1, answered, stdout) != answered) fail("the answers cannot be written");
        answered = 0;
        return;
    case PUT:
        need(at(first, second), second);
        return;
    case FILL:
        need(&x, sizeof x);
        for (uint32_t i = 0; i < second; i++) memcpy(at(first + 8 * (uint64_t)i, 8), &x, 8);
        return;
    case CALL:
        if (first >= sizeof takes / sizeof *takes) fail("an unknown call");
        need(a, 8 * takes[first]);
        r = call(first, a);
        answer(&r, 8);
        return;
    case SHOW:
        answer(at(first, second), second);
        return;
    default:
        fail("an unknown step");
    }
}

int main(void) {
    uint32_t what;
    while (fread(&what, 4, 1, stdin) == 1) step(what);
    return 0;
}
