/* Times calls of the library on the sheets that bench/timing.rt.txt recounts with an evaluator, and prints lines with
 * the board, the kind of count, the least nanoseconds of a call over rounds through sixteen sheets, and a digest of the
 * counts.
 *
 *     cc -O2 -Icrates/board_c bench/calls.c out/libboard_c.a -o calls && ./calls
 *
 * Nothing here is part of the checks. */
#include "board.h"
#include <inttypes.h>
#include <stdio.h>
#include <time.h>

enum { SHEETS = 16, ROUNDS = 12 };

static uint64_t sheets[SHEETS][BOARD_SHEET_WORDS];
static struct board_room room;

static uint64_t now(void) {
    struct timespec at;
    clock_gettime(CLOCK_MONOTONIC, &at);
    return (uint64_t)at.tv_sec * 1000000000u + (uint64_t)at.tv_nsec;
}

/* Numbers by xorshift (Marsaglia 2003), those of bench/timing.rt.txt. */
static uint64_t next(uint64_t *seed) {
    *seed ^= *seed << 13;
    *seed ^= *seed >> 7;
    *seed ^= *seed << 17;
    return *seed;
}

/* Sheets of chairs 1 to `chairs`, with weights from `base` on, `span` of them. */
static void make_sheets(size_t chairs, uint64_t base, uint64_t span) {
    uint64_t seed = 0x9E3779B97F4A7C15u;
    for (size_t turn = 0; turn < SHEETS; turn++) {
        uint64_t total = 0;
        for (size_t place = 0; place < BOARD_CHAIRS; place++) {
            sheets[turn][place] = place < chairs ? next(&seed) % span + base + turn + 1 : 0;
            total += place < chairs ? sheets[turn][place] - 1 : 0;
        }
        sheets[turn][BOARD_CHAIRS] = total;
    }
}

static uint64_t digest(const struct board_counts *counts) {
    uint64_t digest = counts->omega;
    for (uint64_t row = 0; row < counts->chairs; row++) digest = digest * 31 + counts->rows[row].swings;
    return digest;
}

static uint64_t by_half(const uint64_t *words) {
    struct board_counts counts;
    return board_counts_of_sheet(words, BOARD_SHEET_WORDS, BOARD_HALF, &room, &counts) ? 0 : digest(&counts);
}

static void time_calls(const char *board, const char *part, uint64_t (*call)(const uint64_t *)) {
    uint64_t least = UINT64_MAX, sum = 0;
    for (int round = 0; round < ROUNDS; round++) {
        uint64_t start = now();
        for (size_t turn = 0; turn < SHEETS; turn++) sum += call(sheets[turn]);
        uint64_t took = (now() - start) / SHEETS;
        if (took < least) least = took;
    }
    printf("%s %s %" PRIu64 " %" PRIu64 "\n", board, part, least, sum);
}

static void time_board(const char *board, size_t chairs, uint64_t base, uint64_t span) {
    make_sheets(chairs, base, span);
    time_calls(board, "full", by_half);
}

int main(void) {
    time_board("equal32", 32, 1, 1);
    time_board("random32", 32, 1, ((uint64_t)1 << 40) - 1);
    time_board("votes24", 24, 1, 408000);
    time_board("votes25", 25, 1, 408000);
    time_board("votes3", 3, 1, 408000);
    return 0;
}
