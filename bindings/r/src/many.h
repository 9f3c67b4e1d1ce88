/* Counts many sheets on several threads. */
#ifndef MANY_H
#define MANY_H
#include "board.h"
#include <stddef.h>

enum { MOST_THREADS = 64 };

/* What a call returned for a sheet, and the counts if it is BOARD_DONE. */
struct counted {
    uint8_t refusal;
    struct board_all_counts all;
};

/* Sheets to be counted, and the majorities that are asked for, a bit for each number. */
struct counting {
    const uint64_t (*sheets)[BOARD_SHEET_WORDS];
    struct counted *found;
    size_t len;
    uint32_t asked;
};

/* The counts by the majority of a number, from 0 to 3. */
struct board_counts *by_majority(struct board_all_counts *all, uint32_t majority);

/* Counts sheets by the majorities that are asked for. `threads` is the number of threads, from 1 to MOST_THREADS, and
 * includes the caller's. Each has a room of its own. */
void count_sheets(const struct counting *counting, struct board_room *rooms, int threads);

/* The most threads that can count at a time: the processors that this process may use, at most MOST_THREADS. */
int most_threads(void);
#endif
